# shellcheck shell=sh
# The Rattle kit of this machine, and what the scripts of this repository share. Sourced; its functions run in the repository's folder.

# The identity that the README names.
kit_wanted() {
    # shellcheck disable=SC2016 # README's backquotes
    sed -n 's/^Rattle kit: `\([^`]*\)`.*/\1/p' README.md
}

# A word to the reader where this machine has another kit than the README names. Ends the script where there is none.
kit_identity() {
    command -v rt >/dev/null 2>&1 || { echo "no Rattle kit: the command rt is not on the PATH" >&2; exit 2; }
    wanted=$(kit_wanted)
    here=$(rt version)
    [ "$here" = "$wanted" ] || echo "note: this machine has the kit '$here'; the README names '$wanted'"
}

# What --help prints: the comment at the head of a script.
kit_help() { # SCRIPT
    sed -n -e 1d -e '/^#/!q' -e 's/^# \{0,1\}//p' "$1"
}

# What --version prints: the newest entry of CHANGELOG, and the kit.
kit_version() {
    echo "khandzorul $(sed -n 's/^## \([0-9][0-9.]*\).*/\1/p' CHANGELOG.md | head -n 1)"
    wanted=$(kit_wanted)
    if ! command -v rt >/dev/null 2>&1; then
        echo "Rattle kit: none on the PATH; the README names $wanted"
    elif [ "$(rt version)" = "$wanted" ]; then
        echo "Rattle kit: $wanted"
    else
        echo "Rattle kit: $(rt version); the README names $wanted"
    fi
}

# A number with its thousands apart, and a count with what it counts.
kit_grouped() { echo "$1" | sed -e :a -e 's/\(.*[0-9]\)\([0-9]\{3\}\)/\1,\2/' -e ta; }
kit_counted() { if [ "$1" -eq 1 ]; then echo "1 $2"; else echo "$(kit_grouped "$1") $2s"; fi; }

# A bench file that is to be read: '-' is standard input. These three run in any folder. Sets name, or ends the script by its own fail.
kit_readable() { # FILE
    name=$1
    if [ "$1" = - ]; then
        name='standard input'
        (exec 3<&0) 2>/dev/null || fail "standard input is closed"
        return
    fi
    [ -e "$1" ] || fail "$name: no such file"
    [ ! -d "$1" ] || fail "$name is a folder, not a file"
    [ -r "$1" ] || fail "$name can't be read"
}

# Copies it from standard input, up to a byte more than it may have; the programs read no further.
kit_copy() { # COPY MOST
    head -c $(($2 + 1)) 2>/dev/null >"$1"
}

# Prints how long it is, the rest of it being on standard input. Of what may have no end no more than this is read: 'N or more' then.
kit_size() { # COPY MOST
    size=$(wc -c <"$1")
    if [ "$size" -le "$2" ]; then
        echo $((size))
    elif [ -f /dev/stdin ]; then
        echo $((size + $(wc -c)))
    else
        size=$((size + $(head -c $((9999999 - $2)) | wc -c)))
        if [ "$size" -lt 10000000 ]; then echo "$size"; else echo "$size or more"; fi
    fi
}

# Why a bench file is refused.
kit_refusal() { # NUMBER COPY MOST SIZE
    case $1 in
    6) shift; kit_misfit "$@" ;;
    7) echo "its packets' word counts don't sum up to the header's" ;;
    5) echo 'a field of a packet is out of its range' ;;
    3) echo 'a packet has more than 4,096 words' ;;
    esac
}

# Why with 6: the first that holds, in the order of the definition (crates/bench_file/specs/File.antt, misfit).
kit_misfit() { # COPY MOST SIZE
    size=${3%% *}
    [ "$size" -ge 16 ] || { echo "$(kit_counted "$size" byte); at least 16"; return; }
    [ "$size" -le "$2" ] || { echo "$(kit_counted "$size" byte)${3#"$size"}; at most $(kit_grouped "$2")"; return; }
    # its header: packets, words, packet offset, word offset
    # shellcheck disable=SC2046 # four words
    set -- "$size" $(od -An -v -tu1 -N16 "$1" | awk '{ for (i = 1; i <= NF; i++) b[n++] = $i }
        END { for (k = 0; k < 16; k += 4) printf "%.0f ", b[k] + 256 * (b[k + 1] + 256 * (b[k + 2] + 256 * b[k + 3])) }')
    [ "$4" -eq 16 ] || { echo "not a bench file: its packet offset is $4, not 16"; return; }
    at=$((16 + 24 * $2))
    [ "$5" -eq $at ] || { echo "the header says $(kit_counted "$2" packet) and a word offset of $5, not $at"; return; }
    echo "the header says $(kit_counted "$3" word), $(kit_counted "$1" byte) are there, not $(kit_grouped $((at + 10 * $3)))"
}

# Sets kit, the folder of the kit.
kit_find() {
    kit=$(cd "$(dirname "$(readlink -f "$(command -v rt)")")/.." && pwd -P)
}

# Two runs of rt in one crate wait for each other, and so do these scripts: each that proves or builds holds this lock, to the end of the shell
# that took it. The repository's folder is opened for reading alone, so that one who may not write there can wait for one who may. A script that
# holds the lock starts none that takes it.
kit_lock() { # FOLDER-OR-FILE: '.', or a file for a lock of another kind
    if ! command -v flock >/dev/null 2>&1 || [ ! -r "$1" ]; then
        echo "note: no lock (there is no flock, or the folder can't be read): let nothing else prove in this folder meanwhile" >&2
        return 0
    fi
    exec 9<"$1"
    flock -n 9 && return 0
    echo "note: another run proves or builds in this folder; waiting for it" >&2
    flock 9 || echo "note: no lock (the folder can't be locked): let nothing else prove in this folder meanwhile" >&2
}

# Runs a command that proves or builds, alone.
kit_alone() { # COMMAND..
    (kit_lock .; "$@")
}

# Sets found to a crate and the crates of this repository that it stands on, lowest first.
kit_below() { # NAME
    found=
    kit_reach "$1"
}
kit_reach() { # NAME
    # shellcheck disable=SC2013 # words are wanted
    for d in $(sed -n "s/#.*//; s/^$1\( [^:]*\)\{0,1\}: *//p" crates.txt); do
        case " $found " in *" $d "*) ;; *) [ ! -d "crates/$d" ] || kit_reach "$d" ;; esac
    done
    found="$found $1"
}

# The programs, in one line.
kit_programs() {
    for f in crates/*/src/main.rt; do f=${f#crates/}; printf ' %s' "${f%%/*}"; done
}

# A sum of all that a crate is proved and built from: the kit, crates.txt, and the texts of the crate and of those below it.
kit_sum() { # NAME
    kit_find
    kit_below "$1"
    set --
    for d in $found; do
        for part in src specs proofs; do [ ! -d "crates/$d/$part" ] || set -- "$@" "crates/$d/$part"; done
    done
    {
        cat "$kit/KIT-ID" crates.txt
        find "$@" -type f -print0 | LC_ALL=C sort -z | xargs -0 sha256sum
    } | sha256sum | cut -d ' ' -f 1
}

# Copies a program to a folder, and fails unless it is the one that was proved and built from what stands here now. Beside it in out/ a file .from says
# from what: the sum above, and the program's own.
kit_made() { # NAME FOLDER
    made=crates/$1/out/$1
    [ -s "$made.from" ] && cp "$made" "$2/$1" 2>/dev/null &&
        [ "$(cat "$made.from")" = "$(kit_sum "$1") $(sha256sum <"$2/$1")" ]
}
kit_mark() { # NAME SUM: it was proved and built from that just now
    echo "$2 $(sha256sum <"crates/$1/out/$1")" >"crates/$1/out/$1.from"
}

# Can this user write what rt writes for the crates of found?
kit_writable() {
    for d in $found; do
        [ -d "crates/$d/out" ] || { [ -w "crates/$d" ] || return 1; continue; }
        for f in "crates/$d/out" "crates/$d/out"/*; do
            [ ! -e "$f" ] || [ -w "$f" ] || return 1
        done
    done
}

# Passes on what rt says. A note on standard error where it waits for another; and where that is a terminal, a line for each crate that was proved just now.
kit_progress() { # CRATE..: all that may be proved, in that order
    now=
    while IFS= read -r line; do
        printf '%s\n' "$line"
        case $line in
        'rt: waiting for another rt to finish in '*) echo "note: another rt works in ${line#rt: waiting for another rt to finish in }; waiting for it" >&2 ;;
        'rt: '*'; waiting for it, at most half an hour, to use its work') echo "note: ${line#rt: }" >&2 ;;
        'rt: chose --jobs '*' for '*) now=${line##* } began=$(date +%s) ;;
        'logic=proved '*)
            n=0
            for c; do
                n=$((n + 1))
                if [ "$c" = "$now" ] && [ -t 2 ]; then echo "[$n/$#] $now proved, $(($(date +%s) - began)) s" >&2; fi
            done
            now=
            ;;
        esac
    done
}

# Proves and builds a program where that is needed, and copies it to a folder: another run may build it anew while the copy runs. Where it
# can't, it says why. One who may not write out/ gets the program as it was proved there, if nothing that it is made of has changed.
kit_program() ( # NAME FOLDER
    program=$1 to=$2
    kit_lock .
    kit_below "$program"
    why=
    kit_writable || why="user $(id -un 2>/dev/null || id -u) can't write in $PWD/crates"
    if kit_made "$program" "$to"; then
        [ -z "$why" ] || echo "note: $why: $program is run as it was proved last" >&2
        exit 0
    fi
    if [ -n "$why" ]; then
        newer=
        set -- crates.txt
        for d in $found; do
            for part in src specs proofs; do [ ! -d "crates/$d/$part" ] || set -- "$@" "crates/$d/$part"; done
        done
        [ ! -s "crates/$program/out/$program.from" ] || newer=$(find "$@" -newer "crates/$program/out/$program.from" | head -n 1)
        echo "$why, and $program is not proved there${newer:+ since $newer was changed}: one who can write it has to run this first" >&2
        exit 1
    fi
    echo "note: $program is proved and built first, which can take some minutes" >&2
    sum=$(kit_sum "$program")
    # rt has no command that builds a program and does not run it: here it runs on no input, and what it does then is not looked at
    # shellcheck disable=SC2086 # names of crates
    (cd "crates/$program" && rt run 2>&1 >/dev/null </dev/null) | kit_progress $found >"$to/log"
    if ! grep -q "^rt: running out/$program;" "$to/log" || ! cp "crates/$program/out/$program" "$to/$program"; then
        grep -v '^\(statements\|library\|crate\|logic\|checked\|axioms\) \|^only=\|^rt: chose ' "$to/log" | tail -n 20 >&2
        echo "$program is not proved" >&2
        exit 1
    fi
    [ "$sum" != "$(kit_sum "$program")" ] || kit_mark "$program" "$sum"
)
