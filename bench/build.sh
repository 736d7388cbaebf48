# Builds the library, and the comparison over it. Sets `target`, `program` to the library's rehearsal and `compare` to
# the comparison.
top=$(cd "$(dirname "$0")/.." && pwd -P)
. "$top/bindings/build.sh"
mkdir -p "$target/bench"
compare=$target/bench/compare
rustc --edition 2024 -C opt-level=3 -D warnings -L "native=$target/staticlib" -o "$compare" "$top/bench/main.rs"
