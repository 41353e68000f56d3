#!/bin/sh
# build.sh: copies the given Rust text, unchanged, beside the stand-ins of shims/ and builds the driver (release, fat LTO).
#   RUST_SRC    folder with the given text: as a tree (fastpasta/src/..) or flat (src--fastpasta--src--..txt). Default: ../shared/docs/src, beside the repository
#   BUILD_DIR   where to build. Must be given, and lie outside the repository: the given text is no part of it.
#   WITH_DEBUG  set: builds the debug driver too (overflow checks on)
# Prints the driver's path. Exit status 3 and a reason on standard error: the text or cargo is not there.
set -eu
here=$(cd "$(dirname "$0")" && pwd)
src=${RUST_SRC:-$here/../../../shared/docs/src}
build=${BUILD_DIR:?set BUILD_DIR}

find_text() { # the path of a given file, or nothing
    flat=$src/src--fastpasta--src--$(echo "$1" | sed 's#/#--#g').txt
    tree=$src/fastpasta/src/$1
    if [ -f "$tree" ]; then echo "$tree"; elif [ -f "$flat" ]; then echo "$flat"; fi
}

given='
analyze/validators/lib.rs
analyze/validators/its/cdp_running.rs
analyze/validators/its/its_payload_fsm_cont.rs
analyze/validators/its/status_word/tdh.rs
words/its/data_words.rs
words/its/status_words.rs
words/its/status_words/tdh.rs
words/its/status_words/tdt.rs
words/its/status_words/util.rs'

for f in $given; do
    [ -n "$(find_text "$f")" ] || { echo "no Rust text at $src: $f is not there" >&2; exit 3; }
done
command -v cargo >/dev/null 2>&1 || { echo "no cargo" >&2; exit 3; }

mkdir -p "$build"
cp -Rp "$here/shims/." "$build/" # with the files' times, so that cargo builds no more than it must
chmod -R u+w "$build"            # a checkout may be read-only
for f in $given; do
    cmp -s "$(find_text "$f")" "$build/fastpasta/src/$f" || cp "$(find_text "$f")" "$build/fastpasta/src/$f"
    cmp "$(find_text "$f")" "$build/fastpasta/src/$f"
done
cd "$build"
[ -z "${WITH_DEBUG:-}" ] || cargo build --offline -q >&2
cargo build --offline -q --release >&2
echo "$build/target/release/driver"
