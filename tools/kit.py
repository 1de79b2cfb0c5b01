"""How the scripts of tools/ ask the Rattle kit's compiler for what `rt` has no word for, over the libraries that `rt ci` has built.

kit.py --proved: notes in target/proved of which files `rt ci` has just built them. Said by the gate, once `rt ci` has passed."""
import hashlib, pathlib, re, shutil, subprocess, sys

TOP = pathlib.Path(__file__).resolve().parent.parent
NOTED = TOP / "target/proved"


def kit():
    """the kit's folder; none where there is no kit"""
    rt = shutil.which("rt")
    return pathlib.Path(rt).resolve().parent.parent if rt else None


def listed(top=TOP):
    """name of a crate -> whether it is a static library, and what it rests on"""
    lines = (line.split("#")[0] for line in (top / "crates.txt").read_text().splitlines())
    found = (re.fullmatch(r"\s*(\w+)( +staticlib)?[^:]*:(.*)", line) for line in lines)
    return {m[1]: (bool(m[2]), m[3].split()) for m in found if m}


def below(crate, top=TOP):
    """the repository's libraries that a crate rests on, directly or by way of others"""
    crates, found, left = listed(top), [], [crate]
    while left:
        for name in crates[left.pop()][1]:
            if name in crates and name not in found:
                found.append(name)
                left.append(name)
    return found


def rlib(crate, top=TOP):
    """where the library of a crate stands once it is built"""
    return top / "crates" / crate / "out/rlib" / f"{crate}.rlib"


def source_sum():
    """the sum of all that the crates are made of"""
    whole = hashlib.sha256((TOP / "crates.txt").read_bytes())
    for path in sorted(path for part in ("src", "specs", "proofs") for path in TOP.glob(f"crates/*/{part}/**/*") if path.is_file()):
        whole.update(f"\n{path.relative_to(TOP)}\n".encode() + path.read_bytes())
    return whole.hexdigest()


def stands(crate):
    """whether what a crate rests on stands as `rt ci` built it of these files: then no `rt` command need prove it again. A library with a stamp is another command's."""
    built = [rlib(name) for name in below(crate)]
    return NOTED.is_file() and NOTED.read_text().strip() == source_sum() and all(path.is_dir() and not (path.parent / "stamp").exists() for path in built)


def words(crate, top=TOP, jobs=2):
    """the words by which `rt` names a crate to the compiler, in the crate's folder"""
    home, (static, rests) = kit(), listed(top)[crate]
    own = listed(top)
    found = ["--crate-name", crate, f"src/{'main' if (top / 'crates' / crate / 'src/main.rt').exists() else 'lib'}.rt"]
    for name in ["std", *rests]:
        found += ["--extern", f"{name}={rlib(name, top) if name in own else home / 'rlibs' / f'{name}.rlib'}"]
    found += ["-L", f"dependency={home}/rlibs"]
    for name in below(crate, top):
        found += ["-L", f"dependency={rlib(name, top).parent}"]
    found += ["--antt-project", f"{home}/rattle/logic/antt-project.json", "--logic-built", f"{home}/logic_built", "--jobs", str(jobs)]
    return found + (["--crate-type", "staticlib"] if static else [])


def rattle(command, crate, *more, folder=None, jobs=2):
    """the compiler's answer; folder: a copy of the crate's, in its place"""
    line = [kit() / "bin/rattle", command, *words(crate, jobs=jobs), *more]
    return subprocess.run(line, cwd=folder or TOP / "crates" / crate, text=True, errors="replace", stdin=subprocess.DEVNULL, stdout=subprocess.PIPE, stderr=subprocess.STDOUT)


if __name__ == "__main__":
    if sys.argv[1:] != ["--proved"]:
        print(f"kit.py: {' '.join(sys.argv[1:]) or 'no word'} is not known", file=sys.stderr)
        sys.exit(2)
    NOTED.parent.mkdir(exist_ok=True)
    NOTED.write_text(source_sum() + "\n")
