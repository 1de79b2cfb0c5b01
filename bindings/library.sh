# The library that tools/test_bindings and tools/run_examples link, built where it is not there or older than a crate. Sourced by both, at the top of
# the repository. Leaves: $built, the folder for what they build, and $MORELTURRET_LIB, the library's folder.
built=$PWD/target/bindings
export MORELTURRET_LIB=$PWD/target/library
mkdir -p "$built"
# What a build says is shown; what stands already is passed over in silence.
tools/build_library | sed '/^build_library: .* is up to date$/d; /^build_library: for /d; /^declarations: .* as they are/d' >&2
