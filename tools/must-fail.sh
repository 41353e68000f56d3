#!/bin/sh
# must-fail.sh [--anew] [CRATE..]: tries the wrong programs crates/CRATE/must-fail/NAME.edit; of every crate where none is named.
#
# A wrong program is an edit as the kit reads them: lines 'file:', 'old:' and 'new:', where the old text stands once in the file. `rt must-fail` tries each over
# what a check of the crate as it stands has proved, and again only where something changed (--anew: each again). Its line 'refused:' names the functions
# whose own proofs must fail, or the law that must where no function's does: the first proof that fails must be one of these (tools/refused.py says how
# that is known). An edit that fails elsewhere does not count, nor one that is refused only because a proof names what it took away. That no other proof
# fails beside those is not looked at. ./test asks the same of what `rt ci` said, which tries them all.
#
# A line for each. The last line is 'N refused, M not'. Exit status 1 where one was not, 2 where none was tried.
set -u
self=$(readlink -f "$0")
cd "$(dirname "$self")/.." || exit 2
. tools/kit.sh
case ${1-} in -h | --help) kit_help "$self"; exit 0 ;; esac
anew=
[ "${1-}" != --anew ] || { anew=--anew; shift; }
kit_identity
for c; do
    [ -d "crates/$c/must-fail" ] || { echo "must-fail: there is no crates/$c/must-fail" >&2; exit 2; }
done
work=$(mktemp -d "${TMPDIR:-/tmp}/khandzorul-must-fail.XXXXXX") || { echo "must-fail: no temporary folder" >&2; exit 2; }
trap 'rm -rf "$work"' EXIT
trap 'exit 1' HUP INT TERM
# rt sees whether a crate is proved as it stands, but for one that has a single edit and no work that an earlier check kept
for f in crates/*/must-fail; do
    c=${f#crates/} c=${c%/must-fail}
    case " $* " in "  " | *" $c "*) ;; *) continue ;; esac
    if [ -d "crates/$c/out/incremental" ] || [ "$(find "$f" -name '*.edit' | wc -l)" -ne 1 ]; then continue; fi
    (cd "crates/$c" && kit_lock ../.. && rt check) >"$work/log" 2>&1 </dev/null ||
        { tail -n 20 "$work/log" >&2; echo "must-fail: $c is not proved as it stands, which shows nothing" >&2; exit 1; }
done
status=0
kit_alone rt must-fail ${anew:+"$anew"} "$@" >"$work/log" 2>&1 </dev/null || status=$?
if ! grep -q '^rt: must-fail ' "$work/log"; then
    tail -n 20 "$work/log" >&2
    echo "must-fail: what they stand on is not proved" >&2
    exit 2
fi
# what rt says besides, as that a crate is not proved as it stands
grep '^rt: ' "$work/log" | grep -v '^rt: must-fail \|^rt: chose '
tools/refused.py --all "$work/log" "$@" || exit 1
if grep -q ': the check that its must-fail edits begin with did not end well' "$work/log"; then
    echo "must-fail: a crate is not proved as it stands, which shows nothing (rt check in its folder says more)" >&2
    exit 1
fi
[ "$status" -eq 0 ]
