"""The shared library: where it is found, and a call of each exported function.

The functions and their parameters are those of `_declared`, which tools/declarations writes from the crates that export them. A slice is handed in as
a NumPy array, and goes to the library as its address and its length."""
import ctypes
import os
import pathlib

try:
    import numpy as np
except ImportError as missing:
    raise ImportError("morelturret needs NumPy: apt install python3-numpy (Debian's, for /usr/bin/python3)") from missing

from ._declared import FUNCTIONS, SONAME
from .refusal import Refusal

C = {"f64": ctypes.c_double, "u64": ctypes.c_uint64, "u32": ctypes.c_uint32, "i32": ctypes.c_int32, "u8": ctypes.c_uint8, "usize": ctypes.c_size_t}
DTYPE = {"f64": np.float64, "u64": np.uint64, "u32": np.uint32, "i32": np.int32, "u8": np.uint8}
# The words that are lent for an answer; the longest has 8. A function that needs more would answer 100.
WORDS = 16


def find():
    """The shared library: in the folder that MORELTURRET_LIB names; else in target/library of the repository that this package stands in, or, where it
    was installed, in lib of the same PREFIX; else where the system's loader looks."""
    named = os.environ.get("MORELTURRET_LIB")
    above = pathlib.Path(__file__).resolve().parents
    installed = above[3].name == "share"
    for folder in [pathlib.Path(named)] if named else [above[4] / "lib" if installed else above[3] / "target" / "library"]:
        if (folder / SONAME).exists():
            return str(folder / SONAME)
    return SONAME


def load():
    path = find()
    try:
        return ctypes.CDLL(path)
    except OSError as problem:
        raise ImportError(
            f"morelturret needs its shared library, {SONAME}: build it by tools/build_library at the top of the repository, or name its folder in"
            f" MORELTURRET_LIB ({problem})"
        ) from problem


def entry(name, declared):
    """The exported function of this name, over NumPy arrays and numbers."""
    parameters, result = declared.split(" -> ")
    kinds = [parameter.split(": ")[1] for parameter in parameters.split(", ")]
    # for each parameter none, or the type of a slice's entries and whether they are written
    slices = [(np.dtype(DTYPE[kind.strip("[]").split()[-1]]), "mut" in kind) if kind.startswith("[") else None for kind in kinds]
    try:
        function = getattr(loaded, name)
    except AttributeError as missing:
        raise ImportError(f"the shared library has no {name}: it is older than this package; run tools/build_library") from missing
    function.restype = C[result]
    function.argtypes = [word for kind, of in zip(kinds, slices) for word in ([ctypes.c_void_p, ctypes.c_size_t] if of else [C[kind]])]

    def call(*given):
        words = []
        for of, value in zip(slices, given, strict=True):
            if of is None:
                words.append(value)
                continue
            dtype, written = of
            # only arrays that the package itself has laid out come here: nothing is copied, so what is written is seen
            if value.dtype != dtype or not value.flags.c_contiguous or value.ndim != 1 or (written and not value.flags.writeable):
                raise TypeError(f"{name}: an array of {dtype}, in one piece{', to be written' if written else ''}, is needed")
            words += [value.ctypes.data, value.size]
        return function(*words)

    return call


loaded = load()
entries = {name: entry(name, declared) for name, declared in FUNCTIONS.items()}


def plain(name, *given):
    """What a function answers that refuses nothing."""
    return entries[name](*given)


def answer(name, *given):
    """The words that a function writes to `out`, its last parameter; or its refusal."""
    out = np.zeros(WORDS, np.uint64)
    number = entries[name](*given, out)
    if number:
        raise Refusal(number, int(out[0]))
    return [int(word) for word in out]


def floats(values):
    """Values as an array of floats in one piece; itself where it is one."""
    return np.ascontiguousarray(values, np.float64).reshape(-1)


def whole(values, dtype=np.uint32):
    """Values as an array of whole numbers in one piece; itself where it is one."""
    return np.ascontiguousarray(values, dtype).reshape(-1)


def from_bits(word):
    """The float of a bit pattern."""
    return float(np.array(word, np.uint64).view(np.float64))
