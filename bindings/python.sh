# A Python that has NumPy, and the shared library. Sourced at the top of the repository by what runs the Python package. Leaves: $python, empty where
# there is none, and then $missing, which says what lacks. Debian's NumPy is installed where this runs as root; the library is built where it is not
# there or older than a crate.
with_numpy() {
    for python in python3 /usr/bin/python3; do
        "$python" -c 'import numpy' 2>/dev/null && return
    done
    python=
}
with_numpy
if [ -z "$python" ] && [ "$(id -u)" = 0 ] && command -v apt-get >/dev/null; then
    { apt-get install -y python3-numpy || { apt-get update && apt-get install -y python3-numpy; }; } >/dev/null 2>&1 || true
    with_numpy
fi
missing="NumPy (Debian's python3-numpy) is not there"
if [ -n "$python" ]; then
    if command -v cc >/dev/null; then . bindings/library.sh; else python= missing="there is no C compiler (cc) for the shared library"; fi
fi
