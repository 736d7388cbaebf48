# For scripts that set `top` to the repository's top: proves and builds the static library and the programs `rehearse`,
# `sheet_steps`, `unfinished`, `rewrite` and `from_isis`, where that is not done yet, and sets `target` to the folder
# they are in. OFIB_TARGET names another such folder, in which all of them are already.
target=${OFIB_TARGET:-$top/target}
# Where rustup puts rustc, which not every shell has on its PATH.
if ! command -v rustc >/dev/null; then
    PATH=$PATH:${CARGO_HOME:-$(eval echo "~$(id -un)")/.cargo}/bin
fi
if [ -z "${OFIB_TARGET-}" ]; then
    "$top/tools/build" exports rehearse sheet_steps unfinished rewrite from_isis || exit 2
fi
archive=$target/staticlib/libexports.a
program=$target/bin/rehearse
sheet_steps=$target/bin/sheet_steps
unfinished=$target/bin/unfinished
rewrite=$target/bin/rewrite
from_isis=$target/bin/from_isis
for file in "$archive" "$program" "$sheet_steps" "$unfinished" "$rewrite" "$from_isis"; do
    if [ ! -f "$file" ]; then
        echo "$0: $file is missing" >&2
        exit 2
    fi
done
