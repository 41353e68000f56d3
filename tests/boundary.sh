#!/bin/sh
# boundary.sh: the C boundary as its users meet it: header, calls by example, examples, and the comparison with the given Rust.
#
#     tests/boundary.sh [--lib ARCHIVE]
#
#   --lib        an archive that is there already; else tools/native-lib.sh makes it
#   RUST_SRC, CC as for oracle/compare.py; CXX the C++ compiler, default c++
#   BUILD_DIR    where the Rust is built and left, outside the repository; default: a temporary folder
#
# A line for each part: done, left out with the reason, or FAILED, with what the part said above it. What is left out was not tested. The last line
# counts them, however the run ends: 'boundary: N parts done, N left out, N failed'.
# Exit status: 1 if a part failed, 3 if all were left out. Everything is built in a temporary folder.
set -eu
usage() { echo "usage: tests/boundary.sh [--lib ARCHIVE]" >&2; exit 2; }
absolute() { case $1 in /*) echo "$1" ;; *) echo "$PWD/$1" ;; esac; } # by the caller's folder
archive=''
case $#${1:-} in
0) ;;
2--lib) archive=$(absolute "$2") ;;
*) usage ;;
esac
rust=${BUILD_DIR:+$(absolute "$BUILD_DIR")}
cd "$(dirname "$0")/.."
cc=${CC:-cc} cxx=${CXX:-c++} # with flags, where they have any
done=0 out=0 failed=0 work=''

has() { command -v "${1%% *}" >/dev/null 2>&1; }
left_out() { out=$((out + 1)); echo "boundary: left out: $1 (${2%)})"; }
fail() { failed=$((failed + 1)); echo "boundary: FAILED: $1"; }
end() { # the last line, at every end
    status=$?
    [ -z "$work" ] || rm -rf "$work"
    case $status:$failed in 0:* | 3:* | *:[1-9]*) ;; *) fail "the run ended before its time, with $status" ;; esac
    echo "boundary: $done parts done, $out left out, $failed failed"
    exit "$status"
}
trap end EXIT
trap 'exit 1' HUP INT TERM
work=$(mktemp -d "${TMPDIR:-/tmp}/khandzorul-boundary.XXXXXX")
rust=${rust:-$work/rust}

part() { # WHAT COMMAND..: runs a part; what it says is shown where it fails, else its last line
    what=$1
    shift
    set +e
    (set -e; "$@") >"$work/said" 2>&1 # no condition: in one, set -e would do nothing
    status=$?
    set -e
    last=$(tail -n 1 "$work/said")
    if [ "$status" -ne 0 ]; then
        cat "$work/said"
        fail "$what"
    else
        case $last in
        *': left out ('*) left_out "$what" "${last#*: left out (}" ;;
        *) done=$((done + 1)); echo "boundary: done: $what${last:+: $last}" ;;
        esac
    fi
}

strict_c() { $cc -O2 -Wall -Wextra -Wpedantic -Werror -I include "$@"; }
strict_cxx() { $cxx -O2 -Wall -Wextra -Wpedantic -Werror -I include "$@"; }
header_c() {
    echo '#include "khandzorul.h"' >"$work/header.c"
    for std in c99 c11; do strict_c -std=$std -c "$work/header.c" -o "$work/header.o"; done
    # an answer that is not looked at
    $cc -dM -E -x c /dev/null | grep -q __GNUC__ || return 0
    for call in 'khz_start(0, 0, 0, 0, 0, 0, 0)' 'khz_packet(0, 0, 0, 0, 0, 0, 0, 0, 0)' 'khz_word(0, 0, 0, 0, 0, 0)' 'khz_payload(0, 0, 0, 0, 0, 0)' \
        'khz_reset(0, 0)' 'khz_check_file(0, 0)' 'khz_write_ihw(0, 0, 0)' 'khz_write_tdh(0, 0, 0, 0, 0, 0, 0, 0)' \
        'khz_write_tdt(0, 0, 0, 0, 0, 0, 0, 0, 0)' 'khz_write_ddw0(0, 0, 0, 0, 0, 0)' 'khz_write_cdw(0, 0, 0, 0)' 'khz_write_data(0, 0, 0, 0, 0)' \
        'khz_worst_lane(0, 0)' 'khz_lane_status(0, 0, 0)'; do
        printf '#include "khandzorul.h"\nint main(void) { %s; return 0; }\n' "$call" >"$work/header.c"
        if strict_c -std=c99 -c "$work/header.c" -o "$work/header.o" 2>"$work/warned" || ! grep -q unused-result "$work/warned"; then
            cat "$work/warned"
            echo "no warning of an answer that is not looked at: $call"
            exit 1
        fi
    done
}
header_cxx() {
    # the struct's layout and the names are C's
    printf '%s\n' '#include "khandzorul.h"' 'static_assert(sizeof(khz_word_answer) == 64 && sizeof(khz_payload_answer) == 24 && sizeof(khz_status_answer) == 16, "");' \
        'int main() { return khz_reset(nullptr, 0) == KHZ_NO_TRACKER && khz_write_ihw(1, nullptr, 0) == KHZ_WRONG_LENGTH ? 0 : 1; }' >"$work/header.cc"
    strict_cxx -std=c++11 "$work/header.cc" "$archive" -o "$work/header"
    "$work/header"
}
by_example() {
    strict_c -std=c11 tests/boundary.c "$archive" -o "$work/boundary"
    "$work/boundary"
}
ends() { # STATUS OUTPUT-FILE PROGRAM [ARGUMENT..]: how it ends and what it prints; where it prints nothing, that it says why
    must=$1 printed=$2
    shift 2
    ended=0
    "$@" >"$work/printed" 2>"$work/why" || ended=$?
    [ "$ended" -eq "$must" ] || { echo "$*: exit status $ended, not $must"; exit 1; }
    diff "$work/printed" "$printed"
    [ -s "$work/printed" ] || [ -s "$work/why" ] || { echo "$*: does not say why it prints nothing"; exit 1; }
}
on_a_full_disk() { # PROGRAM [ARGUMENT..]: it ends with 2 and says why
    [ -w /dev/full ] || { echo 'without a full disk, since there is no /dev/full'; return 0; }
    ended=0
    "$@" >/dev/full 2>"$work/why" || ended=$?
    [ "$ended" -eq 2 ] || { echo "$*: a full disk: exit status $ended, not 2"; exit 1; }
    [ -s "$work/why" ] || { echo "$*: does not say that the disk is full"; exit 1; }
}
example() { # PROGRAM STATUS NAME
    sh tools/hex.sh <"examples/$3.hex" >"$work/file"
    ends "$2" "examples/$3.out" "$1" "$work/file"
}
run_examples() { # PROGRAM
    example "$1" 0 clean
    example "$1" 1 whole_case
    example "$1" 1 two_pages
    echo 'refused 6' >"$work/refused6"
    echo 'no bench file' >"$work/file"
    ends 2 "$work/refused6" "$1" "$work/file"
    ends 2 "$work/refused6" "$1" /dev/null
    # a byte too many behind a bench file of 60,000: six packets, 5,984 words of zeros
    printf '06000000 60170000 10000000 A0000000' >"$work/header"
    for count in E803 E803 E803 E803 E803 D803; do printf '%042d 02 %s' 0 "$count" >>"$work/header"; done
    (sh tools/hex.sh <"$work/header"; head -c 59841 /dev/zero) >"$work/file"
    ends 2 "$work/refused6" "$1" "$work/file"
    ends 2 /dev/null "$1" "$work/nowhere"
    ends 2 /dev/null "$1" "$work"
    ends 2 /dev/null "$1"
    ends 2 /dev/null "$1" "$work/file" "$work/file"
    sh tools/hex.sh <examples/clean.hex >"$work/file"
    on_a_full_disk "$1" "$work/file"
}
example_c() {
    strict_c -std=c99 examples/box.c "$archive" -o "$work/box_c"
    run_examples "$work/box_c"
}
example_rust() {
    rustc -O --edition 2021 -D warnings examples/box.rs -L "$work" -l static=khandzorul -o "$work/box_rust"
    run_examples "$work/box_rust"
}
# A run of words from their fields: what is printed, how it ends, and the bytes, which were worked out by hand.
run_writer() { # PROGRAM
    ends 0 examples/write.out "$1"
    ends 0 examples/write.out "$1" "$work/words"
    sh tools/hex.sh <examples/write.hex | cmp - "$work/words"
    ends 2 /dev/null "$1" "$work/nowhere/words"
    ends 2 /dev/null "$1" "$work/words" "$work/words"
    on_a_full_disk "$1"
}
writer_c() {
    strict_c -std=c99 examples/write.c "$archive" -o "$work/write_c"
    run_writer "$work/write_c"
}
writer_rust() {
    rustc -O --edition 2021 -D warnings examples/write.rs -L "$work" -l static=khandzorul -o "$work/write_rust"
    run_writer "$work/write_rust"
}
if ! has "$cc"; then
    left_out 'all parts' "no C compiler: $cc"
    exit 3
fi
if [ -n "$archive" ]; then
    cp "$archive" "$work/libkhandzorul.a" || { fail "the library: no archive $archive"; exit 1; }
    archive=$work/libkhandzorul.a
else
    archive=$work/libkhandzorul.a
    part 'the library' sh tools/native-lib.sh khandzorul "$archive"
    [ "$failed" -eq 0 ] || exit 1
fi
part 'the header in C' header_c
if has "$cxx"; then part 'the header in C++' header_cxx; else left_out 'the header in C++' "no C++ compiler: $cxx"; fi
part 'calls by example' by_example
part 'examples/box.c' example_c
part 'examples/write.c' writer_c
if has rustc; then
    part 'examples/box.rs' example_rust
    part 'examples/write.rs' writer_rust
else
    left_out 'examples/box.rs' 'no rustc'
    left_out 'examples/write.rs' 'no rustc'
fi
if has python3; then
    part 'the library beside the given Rust' python3 tests/oracle/compare.py --lib "$archive" --keep "$work/oracle" --build "$rust"
    part 'the recorded answers of vectors' python3 tests/make/record.py --check --build "$rust"
else
    left_out 'the library beside the given Rust' 'no python3'
    left_out 'the recorded answers of vectors' 'no python3'
fi
[ "$failed" -eq 0 ] # the exit status
