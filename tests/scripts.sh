#!/bin/sh
# scripts.sh: what ./check, ./compare and ./write do where a program is not there, lost, damaged, changed, being built by another run, or in a folder that
# can't be written.
#
#     tests/scripts.sh
#
# It is tried on a checkout of its own: the scripts of this one, and programs of a few lines in the place of benchcheck, compare and benchwrite, which are
# proved in seconds. What the programs answer is tried by tests/user.sh. A line for each trial that fails, and for each that was left out; the last line says
# how many there were. Exit status 1 if one failed.
set -eu
cd "$(dirname "$(readlink -f "$0")")/.."
trials=scripts
work=$(mktemp -d "${TMPDIR:-/tmp}/khandzorul-scripts.XXXXXX")
trap 'chmod -R u+w "$work"; rm -rf "$work"' EXIT
trap 'exit 1' HUP INT TERM
. tests/trials.sh

toy=$work/toy
mkdir -p "$toy/tools"
cp check compare write run README.md CHANGELOG.md "$toy"
cp tools/kit.sh "$toy/tools"
echo 'Handles allowed: none.' >"$toy/HANDLES"
printf '%s\n' '# A toy.' 'toy_codes:' 'benchcheck: toy_codes' 'compare:' 'benchwrite: # writes' >"$toy/crates.txt"
for c in toy_codes benchcheck compare benchwrite; do mkdir -p "$toy/crates/$c/src"; done
mkdir "$toy/.git" # it is the top of a repository
cat >"$toy/crates/toy_codes/src/lib.rt" <<'END'
// What the toy says of a wrong file.
#![tactic(auto)]

ghost use Rattle.std.specs.Prelude.{◌≡◌};

pub fn code() -> u64
    ensures { result ≡ 1072 }
{
    1072
}
END
cat >"$toy/crates/benchcheck/src/main.rt" <<'END'
// In the place of benchcheck: a file is a line that says what is to be answered.
#![tactic(auto)]

use std::io;

fn main(rt: HostRuntime) -> io::Result<()> {
    for line in rt.lines(rt.alloc()) {
        let text = line?;
        if text.as_str() == "clean" {
            println!(rt; "packet pos code first second\nrecords 0")?;
        } else if text.as_str() == "wrong" {
            let code = toy_codes::code();
            println!(rt; "packet pos code first second\n1 84 {code} 1 1\nrecords 1")?;
        } else {
            println!(rt; "refused 6")?;
        }
    }
    Ok(())
}
END
cat >"$toy/crates/compare/src/main.rt" <<'END'
// In the place of compare: whether two files are equal; nothing where one can't be read.
#![tactic(auto)]

use std::fs;
use std::io;

fn main(rt: HostRuntime) -> io::Result<()> {
    let Ok(first) = fs::read_to_string(&rt, "first.bench") else {
        return Ok(());
    };
    let Ok(second) = fs::read_to_string(&rt, "second.bench") else {
        return Ok(());
    };
    if first.as_str() == second.as_str() {
        println!(rt; "differences 0")
    } else {
        println!(rt; "byte 0 2 9 33 34\ndifferences 1")
    }
}
END
cat >"$toy/crates/benchwrite/src/main.rt" <<'END'
// In the place of benchwrite: a file without packets, or a refusal.
#![tactic(auto)]

use std::io;

fn main(rt: HostRuntime) -> io::Result<()> {
    let mut good = true;
    for line in rt.lines(rt.alloc()) {
        if line?.as_str() != "# nothing" {
            good = false;
        }
    }
    if good {
        print!(rt; "\0\0\0\0\0\0\0\0\x10\0\0\0\x10\0\0\0")
    } else {
        println!(rt; "refused 102 at line 1")
    }
}
END

# the files, and what must be said of them
: >"$work/nothing"
for f in clean wrong text; do echo "$f" >"$work/$f"; done
echo '# nothing' >"$work/empty"
cp "$work/clean" "$work/clean_too"
printf 'packet pos code first second\nrecords 0\n' >"$work/clean.out"
printf 'packet pos code first second\n1 84 1072 1 1\nrecords 1\n' >"$work/wrong.out"
echo 'refused 6' >"$work/text.out"
printf 'byte 0 2 9 33 34\ndifferences 1\n' >"$work/one_byte"
echo 'differences 0' >"$work/equal"
printf '\0\0\0\0\0\0\0\0\020\0\0\0\020\0\0\0' >"$work/no_packets"
first='note: .* is proved and built first'

# several at once, of programs that were never built: one run builds each, the others wait
at_once() { # NAME STATUS OUTPUT-FILE ERROR-PATTERN
    what="at once: $1"
    background_ended "$1"
    judge "$2" "$3" "$4"
}
background check_clean "$toy/check" "$work/clean" &
background check_wrong "$toy/check" "$work/wrong" &
background check_text "$toy/check" "$work/text" &
background compare_same "$toy/compare" "$work/clean" "$work/clean_too" &
background compare_other "$toy/compare" "$work/clean" "$work/wrong" &
background write_empty "$toy/write" "$work/empty" &
background write_text "$toy/write" "$work/text" &
wait
at_once check_clean 0 "$work/clean.out" ''
at_once check_wrong 1 "$work/wrong.out" ''
at_once check_text 2 "$work/text.out" 'refused 6: 5 bytes; at least 16'
at_once compare_same 0 "$work/equal" ''
at_once compare_other 1 "$work/one_byte" ''
at_once write_empty 0 "$work/no_packets" ''
at_once write_text 2 "$work/nothing" '^refused 102 at line 1'

# from then on the answer comes at once
try_command 'proved before' 0 "$work/clean.out" '' "$toy/check" "$work/clean"
! grep -q "$first" "$work/err" || wrong 'builds it again'

# what is lost, empty or another program is built again
rm "$toy/crates/benchcheck/out/benchcheck"
try_command 'a lost program' 1 "$work/wrong.out" "$first" "$toy/check" "$work/wrong"
: >"$toy/crates/compare/out/compare"
try_command 'compare: an empty program' 1 "$work/one_byte" "$first" "$toy/compare" "$work/clean" "$work/wrong"
cp "$toy/crates/benchcheck/out/benchcheck" "$toy/crates/benchwrite/out/benchwrite"
try_command 'write: another program in its place' 0 "$work/no_packets" "$first" "$toy/write" "$work/empty"
rm -rf "$toy/crates/benchcheck/out" "$toy/crates/toy_codes/out"
if command -v script >/dev/null 2>&1; then
    what='all lost, at a terminal' status=0
    script -qec "'$toy/check' '$work/wrong'" /dev/null </dev/null >"$work/terminal" 2>"$work/err" || status=$?
    # what was said, then what was found
    tr -d '\r' <"$work/terminal" >"$work/seen"
    grep -q '^\[2/2\] benchcheck proved, [0-9]* s$' "$work/seen" || { wrong 'no line says that benchcheck is proved'; cat "$work/seen"; }
    grep -v '^note: \|^\[' "$work/seen" >"$work/out" || true
    judge 1 "$work/wrong.out" ''
else
    left_out 'what is seen at a terminal (no script)'
fi

# files that are written anew where they stand, while ./compare waits for another run: it has read both by then
if command -v flock >/dev/null 2>&1; then
    cp "$work/clean" "$work/written"
    cp "$work/wrong" "$work/written_too"
    exec 8<"$toy"
    flock 8
    background written "$toy/compare" "$work/written" "$work/written_too" &
    n=0
    until grep -q 'waiting for it' "$work/written.said" 2>/dev/null || [ $n -eq 60 ]; do sleep 1; n=$((n + 1)); done
    cat "$work/wrong" >"$work/written"
    : >"$work/written_too"
    flock -u 8
    exec 8<&-
    wait
    what='compare: files that are written meanwhile'
    background_ended written
    judge 1 "$work/one_byte" 'note: another run proves or builds in this folder; waiting'
else
    left_out 'compare: files that are written meanwhile (no flock)'
fi

# What says nothing of the files is no answer: a program that prints nothing, since a cp takes its second file away; another one; half of one.
mkdir "$work/taking" "$work/giving"
# shellcheck disable=SC2016 # the other shell's
printf '%s\n' '#!/bin/sh' 'PATH=${PATH#*:}' 'cp "$@" && rm -f "${2%/*}/second.bench"' >"$work/taking/cp"
# shellcheck disable=SC2016
printf '%s\n' '#!/bin/sh' 'PATH=${PATH#*:}' 'cp "$GIVEN" "$2" && chmod +x "$2"' >"$work/giving/cp"
chmod +x "$work/taking/cp" "$work/giving/cp"
printf '%s\n' '#!/bin/sh' 'echo refused 6' >"$work/another"
given() { # PROGRAM COMMAND..: it gets that program
    GIVEN=$1
    shift
    env GIVEN="$GIVEN" PATH="$work/giving:$PATH" "$@"
}
head -c 5000 "$toy/crates/compare/out/compare" >"$work/half"
try_command 'compare: a copy that is lost' 2 "$work/nothing" '^compare: the program could not read a file' \
    env PATH="$work/taking:$PATH" "$toy/compare" "$work/clean" "$work/clean"
try_command 'compare: an answer that is none' 2 "$work/nothing" '^compare: refused 6: an answer that is none' \
    given "$work/another" "$toy/compare" "$work/clean" "$work/clean"
try_command 'compare: half a program' 2 "$work/nothing" '^compare: the program ended before' \
    given "$work/half" "$toy/compare" "$work/clean" "$work/clean"
try_command 'write: an answer that is none' 2 "$work/nothing" '^write: refused 6: an answer that is none' given "$work/another" "$toy/write" "$work/empty"
try_command 'write: half a program' 2 "$work/nothing" '^write: benchwrite ended before' given "$work/half" "$toy/write" "$work/empty"
try_command 'half a program' 2 "$work/nothing" '^check: benchcheck ended before' given "$work/half" "$toy/check" "$work/clean"

# without flock it goes on, and says so
mkdir "$work/bin"
(
    IFS=:
    for folder in $PATH; do ln -s "$folder"/* "$work/bin" 2>/dev/null || true; done
)
rm -f "$work/bin/flock"
try_command 'without flock' 1 "$work/wrong.out" 'note: no lock' env PATH="$work/bin" "$toy/check" "$work/wrong"

# a library that is changed: what stands on it is proved again; and where it is not proved, nothing is checked, and it says so
lib=$toy/crates/toy_codes/src/lib.rt
change() { # OLD NEW
    sed "s|$1|$2|" "$lib" >"$work/lib.rt"
    cat "$work/lib.rt" >"$lib"
}
change 1072 1073
sed 's/1072/1073/' "$work/wrong.out" >"$work/changed.out"
try_command 'a changed library' 1 "$work/changed.out" "$first" "$toy/check" "$work/wrong"
change '^    1073' '    1074'
try_command 'a library that is not proved' 2 "$work/nothing" "^check: $work/wrong was not checked" "$toy/check" "$work/wrong"
grep -q '^fn toy_codes::code: no' "$work/said" || { wrong 'does not name the function'; cat "$work/said"; }
change '^    1074' '    1073'
try_command 'the same, mended' 1 "$work/changed.out" '' "$toy/check" "$work/wrong"

# a user who can't write the folder
if may_read_only "$toy" "$work/wrong"; then
    read_only "a folder that can't be written, proved" 1 "$work/changed.out" "note: $cannot: benchcheck is run as it was" "$toy/check" -
    read_only "compare there, proved" 1 "$work/one_byte" "note: $cannot: compare is run as it was" "$toy/compare" - "$work/clean"
    read_only "write there, proved" 0 "$work/no_packets" "note: $cannot: benchwrite is run as it was" "$toy/write" "$work/empty"
    cp "$work/wrong" "$work/locked"
    chmod 000 "$work/locked"
    locked="^compare: $work/locked can't be read"
    read_only "compare: a file that can't be read" 2 "$work/nothing" "$locked" "$toy/compare" "$work/locked" -
    read_only "compare: a second file that can't be read" 2 "$work/nothing" "$locked" "$toy/compare" - "$work/locked"
    change '^// What' '// Which,'
    read_only 'the same, changed since' 2 "$work/nothing" 'not proved there since crates/toy_codes/src.* was changed' "$toy/check" -
    change '^// Which,' '// What'
    read_only 'the same, changed back' 1 "$work/changed.out" "note: $cannot: benchcheck is run as it was" "$toy/check" -
    rm "$toy/crates/compare/out/compare"
    read_only 'compare there, the program lost' 2 "$work/nothing" "$cannot, and compare is not" "$toy/compare" - "$work/clean"
    rm -rf "$toy"/crates/*/out
    read_only 'the same, never proved' 2 "$work/nothing" "$cannot, and benchcheck is not" "$toy/check" -
    read_only 'run there, never proved' 2 "$work/nothing" "$cannot, and compare is not" "$toy/run" compare
fi

ended
