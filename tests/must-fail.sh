#!/bin/sh
# must-fail.sh: tools/must-fail.sh over a small crate of its own, with wrong programs that it must count and others that it must not: one that changes
# nothing that is proved, is refused elsewhere than it says, fails for its shape, can't be made, or does not compile.
#
# Exit status 1 where one of them gets another answer.
set -eu
cd "$(dirname "$0")/.."
work=$(mktemp -d "${TMPDIR:-/tmp}/khandzorul-must-fail-test.XXXXXX")
trap 'rm -rf "$work"' EXIT
trap 'exit 1' HUP INT TERM
edits=$work/crates/numbers/must-fail
mkdir -p "$edits" "$work/crates/numbers/src" "$work/crates/numbers/proofs/called" "$work/tools" "$work/.git"
cp README.md "$work"
cp tools/kit.sh tools/must-fail.sh tools/refused.py "$work/tools"
echo 'numbers:' >"$work/crates.txt"
cat >"$work/crates/numbers/src/lib.rt" <<'END'
// Two numbers, and one of them by a call.
#![tactic(auto)]

ghost use Rattle.std.specs.Prelude.{◌≡◌};

pub fn seven() -> u64
    ensures { result ≡ 7 }
{
    7
}

pub fn eight() -> u64
    ensures { result ≡ 8 }
{
    8
}

pub fn called() -> u64
    ensures { result ≡ 8 }
{
    let n = eight();
    n
}
END
cat >"$work/crates/numbers/proofs/called/Answers.antt" <<'END'
-- `called` meets its contract, by what it calls.
use Rattle.numbers.proofs.called.Goals as goal

pub returns : goal.returns
returns c = c.eight-n.ensures
END

edit() { # NAME REFUSED-LINE OLD NEW
    { [ -z "$2" ] || echo "$2"; printf 'file: src/lib.rt\nold: %s\nnew: %s\n' "$3" "$4"; } >"$edits/$1.edit"
}
edit counted 'refused: seven' '    7' '    6'
edit among_others '# refused: eight seven' '    7' '    6'
edit says_nothing '' '    7' '    6'
edit changes_a_comment 'refused: seven' 'Two numbers' 'Numbers'
edit refused_elsewhere 'refused: eight' '    7' '    6'
edit another_shape 'refused: called' '    let n = eight();' '    let n = 8;'
edit not_there 'refused: seven' '    70' '    6'
edit there_twice 'refused: seven' 'pub fn' 'fn'
edit does_not_compile 'refused: seven' '    7' '    seven('
echo 'refused: seven' >"$edits/no_edit.edit"

"$work/tools/must-fail.sh" >"$work/out" 2>"$work/err" && status=0 || status=$?
# of an edit that rt can't use, what rt says is its own
sed -n 's/\(BAD EDIT\|NOT REFUSED\): .*/\1/; s/^must-fail numbers\///p' "$work/out" >"$work/seen"
cat >"$work/expected" <<'END'
among_others: refused at seven, as it must be
another_shape: REFUSED FOR ITS SHAPE: a proof names what it took away, and no fact fails (called)
changes_a_comment: NOT REFUSED
counted: refused at seven, as it must be
does_not_compile: BAD EDIT
no_edit: BAD EDIT
not_there: BAD EDIT
refused_elsewhere: REFUSED ELSEWHERE: first at seven; its line 'refused:' says: eight
says_nothing: REFUSED ELSEWHERE: first at seven; its line 'refused:' says: nothing
there_twice: BAD EDIT
END
if ! cmp -s "$work/seen" "$work/expected" || [ "$status" -ne 1 ] || [ "$(tail -n 1 "$work/out")" != '2 refused, 8 not' ]; then
    echo "must-fail: status $status, and other answers than must be:"
    cat "$work/out" "$work/err"
    exit 1
fi

# Of a crate that is not proved as it stands nothing is shown.
sed 's/^    7$/    6/' "$work/crates/numbers/src/lib.rt" >"$work/lib.rt"
mv "$work/lib.rt" "$work/crates/numbers/src/lib.rt"
rm "$edits"/*
edit counted 'refused: eight' '    8' '    9'
"$work/tools/must-fail.sh" numbers >"$work/out" 2>"$work/err" && status=0 || status=$?
if [ "$status" -ne 1 ] || ! grep -q 'not proved as it stands' "$work/err"; then
    echo "must-fail: status $status of a crate that is not proved:"
    cat "$work/out" "$work/err"
    exit 1
fi
echo "must-fail: 11 answers of tools/must-fail.sh, as they must be"
