# shellcheck shell=sh
# What tests/user.sh and tests/scripts.sh share: a trial, and how its answer is judged. Sourced, with trials set to the name of the script and work to a
# temporary folder.
# shellcheck disable=SC2154 # trials, work
tried=0 failed=0

wrong() { failed=$((failed + 1)); echo "$trials: $what: $1"; }
left_out() { echo "$trials: left out: $1"; }
judge() { # STATUS OUTPUT-FILE ERROR-PATTERN: what was done, against what must be done
    tried=$((tried + 1))
    [ "$status" -eq "$1" ] || wrong "exit status $status, not $1"
    cmp -s "$work/out" "$2" || { wrong 'printed'; head -n 20 "$work/out"; }
    # what notes say, of the kit or of another run, is no word about the file; a pattern 'note: ..' asks for one, and for nothing else
    grep -v '^note: ' "$work/err" >"$work/said" || true
    case $3 in
    '') [ ! -s "$work/said" ] || { wrong 'said'; cat "$work/said"; } ;;
    'note: '*)
        grep -q -- "^$3" "$work/err" || { wrong "did not say '$3', but"; cat "$work/err"; }
        [ ! -s "$work/said" ] || { wrong 'said'; cat "$work/said"; }
        ;;
    *) grep -q -- "$3" "$work/said" || { wrong "did not say '$3', but"; cat "$work/said"; } ;;
    esac
}
try_command() { # WHAT STATUS OUTPUT-FILE ERROR-PATTERN COMMAND..
    what=$1 must=$2 expected=$3 says=$4
    shift 4
    status=0
    "$@" >"$work/out" 2>"$work/err" </dev/null || status=$?
    judge "$must" "$expected" "$says"
}
background() { # NAME COMMAND..: leaves what it printed and said, and its exit status last
    name=$1 status=0
    shift
    "$@" >"$work/$name.printed" 2>"$work/$name.said" </dev/null || status=$?
    echo "$status" >"$work/$name.status"
}
background_ended() { # NAME: for judge
    status=$(cat "$work/$1.status")
    mv "$work/$1.printed" "$work/out"
    mv "$work/$1.said" "$work/err"
}
may_read_only() { # FOLDER INPUT: for read_only. Root can write always, so nobody is asked. Sets cannot, what the scripts say; fails where it can't be tried
    folder=$1 input=$2
    chmod -R a+rX "$folder"
    chmod 711 "$work"
    as=
    if [ "$(id -u)" -eq 0 ]; then as='setpriv --reuid=65534 --regid=65534 --clear-groups'; fi
    mkdir "$work/tmp"
    chmod 777 "$work/tmp"
    # shellcheck disable=SC2016,SC2086 # the other shell's $1; the words of $as
    $as sh -c 'cd "$1" && rt version' sh "$folder" >/dev/null 2>&1 || {
        left_out "a folder that can't be written (root can write all, and nobody can't be asked: no setpriv, or no way to the kit or to $work)"
        return 1
    }
    # shellcheck disable=SC2034,SC2086 # cannot is for who asks; the words of $as
    cannot="user $(${as:-env} id -un 2>/dev/null || ${as:-env} id -u) can't write in $folder/crates"
}
read_only() { # WHAT STATUS OUTPUT-FILE ERROR-PATTERN COMMAND..: with the input, in the folder, which that user can't write
    chmod -R a-w "$folder"
    what=$1 must=$2 expected=$3 says=$4
    shift 4
    status=0
    # shellcheck disable=SC2086 # the words of $as
    TMPDIR=$work/tmp $as "$@" >"$work/out" 2>"$work/err" <"$input" || status=$?
    judge "$must" "$expected" "$says"
    chmod -R u+w "$folder"
}
ended() { # the last line, and whether all went well
    echo "$trials: $tried trials, $failed failed"
    [ "$failed" -eq 0 ]
}
