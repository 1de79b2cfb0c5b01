# Builds the programs of compare/ into target/compare. Sourced by tools/compare, tools/record and tools/bench, at the top of the repository.
# Where the Rust source, a Rust compiler or Debian's smallvec is missing, says so in one line and ends with status 0.
# Leaves: $programs, the folder of the programs.

skip() {
    echo "${0##*/}: $1; nothing was run"
    exit 0
}

rust_source=${MORELTURRET_RUST_SRC:-$PWD/../shared/docs/src}
[ -f "$rust_source/crates/geo-polygonize-core/src/noding/grid.rs" ] || skip "the Rust source is not at ${MORELTURRET_RUST_SRC:-../shared/docs/src} (MORELTURRET_RUST_SRC names its folder)"
command -v cargo >/dev/null && command -v rustc >/dev/null && command -v cc >/dev/null || skip "there is no Rust compiler (cargo, rustc and cc)"

# The Rust keeps a walk's cells in a SmallVec: Debian's package has the source of that crate.
registry=/usr/share/cargo/registry
if ! ls -d "$registry"/smallvec-1.* >/dev/null 2>&1; then
    [ "$(id -u)" = 0 ] || skip "Debian's librust-smallvec-dev is not installed, and only root can install it"
    { apt-get install -y -qq librust-smallvec-dev || { apt-get update -qq && apt-get install -y -qq librust-smallvec-dev; }; } >/dev/null 2>&1 ||
        skip "Debian's librust-smallvec-dev could not be installed"
fi

# The port's library, the one that C and Rust programs link, and the inner walk, which is no part of it: built again when a crate has changed.
built=$PWD/target/compare
mkdir -p "$built"
tools/build_library >"$built/library.log" 2>&1 || { cat "$built/library.log"; echo "${0##*/}: the port's library was not built"; exit 1; }
export MORELTURRET_LIB=$PWD/target/library MORELTURRET_INNER_LIB=$built/libinner_walk.a
if ! is_newer "$MORELTURRET_INNER_LIB"; then
    tools/native_lib "$MORELTURRET_INNER_LIB" inner_walk_c >>"$built/library.log" 2>&1 || { cat "$built/library.log"; echo "${0##*/}: the inner walk was not built"; exit 1; }
fi

# cargo writes its lock file beside the manifest, so the package is laid out under target/.
package=$built/package
mkdir -p "$package"
cmp -s compare/Cargo.toml "$package/Cargo.toml" || cp compare/Cargo.toml "$package/Cargo.toml"
# Copies and no links: `rt ci` takes no link in a checkout.
rm -rf "$package/src" "$package/morelturret" "$package/build.rs"
cp -p compare/build.rs "$package/build.rs"
cp -rp compare/src "$package/src"
cp -rp bindings/rust "$package/morelturret"
MORELTURRET_RUST_SRC=$(cd "$rust_source" && pwd) cargo build --quiet --release --offline --manifest-path "$package/Cargo.toml" --target-dir "$built" \
    --config 'source.crates-io.replace-with="debian"' --config "source.debian.directory=\"$registry\""
programs=$built/release
