#!/bin/sh
# run.sh: the benchmark, one command: khz_payload and khz_word of an archive, the plain C version (tests/oracle/plain.c) and the given Rust
# on the same streams.
#
#     bench/run.sh [--instructions | --stack] [--before OLDER] [ARCHIVE]
#
#   ARCHIVE         of the library, for this machine; default: tools/native-lib.sh makes it. Where that can't be, khz is left out, and the
#                   output says so
#   --before OLDER  an older archive of the library, for this machine: two columns more, so that before and after are of one run
#   --instructions  instructions a word by valgrind's callgrind, in place of times
#   --stack         bytes of stack a call, by painting, in place of times
#   RUST_SRC        the given Rust text, default ../shared/docs/src beside the repository; without it or without cargo the Rust is left out
#   BUILD_DIR       where the Rust is built; default: a temporary folder
#   WORDS, ROUNDS   size of a stream (default 20000) and interleaved rounds (default 101)
#   CC              the C compiler, default cc
#
# Everything is built in a temporary folder. Streams and columns: bench.c, streams.c.
set -eu
cd "$(dirname "$0")/.."
instructions='' stack='' before='' archive=''
while [ $# -gt 0 ]; do
    case $1 in
    --instructions) instructions=1 ;;
    --stack) stack=1 ;;
    --before) before=${2:?--before ARCHIVE}; shift ;;
    -*) echo "usage: bench/run.sh [--instructions | --stack] [--before OLDER] [ARCHIVE]" >&2; exit 2 ;;
    *) archive=$1 ;;
    esac
    shift
done
words=${WORDS:-20000}
cc=${CC:-cc}
work=$(mktemp -d "${TMPDIR:-/tmp}/khandzorul-bench.XXXXXX")
trap 'rm -rf "$work"' EXIT
trap 'exit 1' HUP INT TERM

cpu=$(sed -n 's/^model name[^:]*: *//p' /proc/cpuinfo 2>/dev/null | head -n 1)
[ -n "$cpu" ] || cpu=$(lscpu 2>/dev/null | sed -n 's/^Model name: *//p' | head -n 1)
echo "machine   $(uname -m), ${cpu:-cpu not known}, $(getconf _NPROCESSORS_ONLN) cpus"
echo "cc        $($cc --version | head -n 1), -std=c11 -O2"

driver=- status=0
BUILD_DIR=${BUILD_DIR:-$work/rust} sh tests/oracle/build.sh >"$work/driver" 2>"$work/why" || status=$?
case $status in
0) driver=$(tail -n 1 "$work/driver"); echo "rustc     $(rustc --version), release, fat LTO" ;;
3) echo "rustc     left out ($(cat "$work/why"))" ;;
*) cat "$work/why" >&2; exit 1 ;;
esac

if [ -z "$archive" ]; then
    archive=$work/libkhandzorul.a
    sh tools/native-lib.sh khandzorul "$archive" >"$work/made" 2>"$work/why" || tail -n 1 "$work/why" >&2
    [ ! -s "$work/made" ] || echo "library   $(sed 's/^native-lib: //' "$work/made")"
fi
set -- -std=c11 -O2 -Wall -Wextra -I include -I tests/oracle bench/bench.c bench/streams.c tests/oracle/plain.c
columns='plain_payload plain_word'
said() { echo "$1 $2, $(cksum <"$2" | tr ' ' '/') (checksum/bytes)"; }
if [ -f "$archive" ]; then
    said 'archive  ' "$archive"
    set -- "$@" "$archive"
    columns="$columns khz_payload khz_word"
else
    echo "archive   left out: there is none"
    set -- "$@" -DNO_KHZ
fi
if [ -n "$stack" ]; then
    [ -f "$archive" ] || exit 1
    for a in "$archive" ${before:+"$before"}; do
        older='' # an archive without the writers of words
        nm "$a" | grep -q khz_write_ihw || older=-DNO_WRITERS
        "$cc" -std=c11 -O2 -Wall -Wextra $older -I include bench/stack.c bench/streams.c "$a" -o "$work/stack"
        echo "figures   bytes of stack a call, $a"
        "$work/stack"
    done
    exit 0
fi
if [ -n "$before" ]; then
    said 'before   ' "$before"
    nm -g --defined-only "$before" | sed -n 's/.* T khz_\(.*\)/khz_\1 before_\1/p' >"$work/renamed"
    objcopy --redefine-syms="$work/renamed" "$before" "$work/before.a"
    set -- "$@" -DBEFORE "$work/before.a"
    columns="$columns before_payload before_word"
fi
"$cc" "$@" -o "$work/bench"

if [ -z "$instructions" ]; then
    "$work/bench" time "$words" "${ROUNDS:-101}" "$driver" "$work"
    exit 0
fi

command -v valgrind >/dev/null 2>&1 || { echo "bench: left out (no valgrind)"; exit 0; }
# What three passes take more than one, over two: making the stream and starting up fall out.
collected() {
    valgrind --tool=callgrind --callgrind-out-file=/dev/null "$@" >"$work/out" 2>"$work/log" || { cat "$work/log" >&2; exit 1; }
    sed -n 's/.*Collected : *//p' "$work/log"
}
streams='0 1 2 3 4 5 6'
for k in $streams; do "$work/bench" print "$k" "$words" >"$work/$k"; done
echo "figures   instructions a word by callgrind, $(grep -c '^W' "$work/0") words; of the pages $(grep -c '^W' "$work/6")"
echo
printf '%-15s %9s %9s %9s %9s %9s %9s %9s\n' '' inner outer 1% 10% all alone pages
[ "$driver" = - ] || columns="$columns Rust"
for c in $columns; do
    printf '%-15s' "$c"
    for k in $streams; do
        n=$(grep -c '^W' "$work/$k")
        if [ "$c" = Rust ]; then
            one=$(collected "$driver" time "$work/$k" 1)
            three=$(collected "$driver" time "$work/$k" 3)
        else
            one=$(collected "$work/bench" count "$k" "$c" "$words" 1)
            three=$(collected "$work/bench" count "$k" "$c" "$words" 3)
        fi
        printf ' %9s' "$(awk "BEGIN { printf \"%.1f\", ($three - $one) / 2 / $n }")"
    done
    echo
done
