#!/bin/sh
# fields.sh: what the program fields says of input that is no words, or not words alone. The answers were worked out by hand from document 01.
#
#     tests/fields.sh          the program is proved and built where it is not
#
# A line for each trial that fails; the last line says how many there were. Exit status 1 if one failed.
set -eu
cd "$(dirname "$0")/.."
. tools/kit.sh
work=$(mktemp -d "${TMPDIR:-/tmp}/khandzorul-fields.XXXXXX")
trap 'rm -rf "$work"' EXIT
trap 'exit 1' HUP INT TERM
kit_program fields "$work" || { echo "fields: 0 trials, 1 failed: fields is not there"; exit 1; }
tried=0 failed=0

try() { # WHAT: on the bytes of $work/in, against the lines of standard input
    tried=$((tried + 1))
    cat >"$work/must"
    "$work/fields" <"$work/in" >"$work/out" || echo "exit status $?" >>"$work/out"
    cmp -s "$work/out" "$work/must" || { failed=$((failed + 1)); echo "fields: $1: printed"; tail -n 5 "$work/out"; }
}
hex() { printf '%s\n' "$*" | sh tools/hex.sh >"$work/in"; }
zeros() { head -c "$1" /dev/zero; }

hex ''
try 'nothing' <<'END'
no words
END
hex E0
try 'a byte' <<'END'
bytes left over at the end: 1
END
hex 030000000000000000E0 1010EC0D0700000000
try 'a word and nine bytes' <<'END'
id 224 IHW active_lanes 3 lanes_on 2
bytes left over at the end: 9
END

sh tools/hex.sh <examples/clean.hex >"$work/clean"
cp "$work/clean" "$work/in"
try 'a bench file' <<'END'
this begins like a bench file, which ./check takes; for its words alone: tail -c +41 FILE | ./run fields
END
tail -c +41 "$work/clean" >"$work/in"
try 'its words alone, as that line says' <<'END'
id 224 IHW active_lanes 3 lanes_on 2
id 232 TDH trigger_type 16 internal_trigger 1 no_data 0 continuation 0 trigger_bc 3564 trigger_orbit 7
id 33 data word lane 1
id 240 TDT packet_done 1 worst_lane_status 0
END
sh tools/hex.sh <examples/write.hex >"$work/in"
try 'the words that examples/write.c writes' <<'END'
id 224 IHW active_lanes 3 lanes_on 2
id 232 TDH trigger_type 16 internal_trigger 1 no_data 0 continuation 0 trigger_bc 100 trigger_orbit 7
id 248 CDW calibration_user_fields 20015998343868 calibration_word_index 0
id 32 data word lane 0
id 33 data word lane 1
id 240 TDT packet_done 1 worst_lane_status 1
id 232 TDH after packet done trigger_type 16 internal_trigger 1 no_data 0 continuation 0 trigger_bc 298 trigger_orbit 7
id 32 data word lane 0
id 33 data word lane 1
id 240 TDT packet_done 1 worst_lane_status 0
id 228 DDW0 index 0 worst_lane_status 1
END
hex 00000000 00000000 10000000 10000000
try 'a bench file without packets' <<'END'
this begins like a bench file, which ./check takes; for its words alone: tail -c +17 FILE | ./run fields
END
# one byte short of a header, another packet offset, another word offset, and one that is right modulo 2^32 alone
for header in '00000000 00000000 10000000 100000' '00000000 00000000 11000000 10000000' '00000000 00000000 10000000 11000000' \
    '00000020 00000000 10000000 10000000'; do
    hex "$header"
    try "no header: $header" <<END
id 0 IHW active_lanes 0 lanes_on 0, by its place: its id is 0x00, not 0xE0
bytes left over at the end: $(($(wc -c <"$work/in") - 10))
END
done

# the last inner lane, two that can't be, and the last outer lanes of a connector with the one behind each
hex 000000000000000000E0 000000000000000000E8 00000000000000000028 00000000000000000029 0000000000000000003F \
    00000000000000000046 00000000000000000047 0000000000000000005E 0000000000000000005F
try "lanes that can't be" <<'END'
id 224 IHW active_lanes 0 lanes_on 0
id 232 TDH trigger_type 0 internal_trigger 0 no_data 0 continuation 0 trigger_bc 0 trigger_orbit 0
id 40 data word lane 8
id 41 data word lane 9, no such lane, a guess
id 63 data word lane 31, no such lane, a guess
id 70 data word lane 6
id 71 data word lane 78, no such lane, a guess
id 94 data word lane 27
id 95 data word lane 28, no such lane, a guess
END

# zeros: an IHW and a TDH by their place, then data words by a guess, all with the id 0
many() { # WORDS
    echo 'id 0 IHW active_lanes 0 lanes_on 0, by its place: its id is 0x00, not 0xE0'
    printf 'id 0 TDH trigger_type 0 internal_trigger 0 no_data 0 continuation 0 trigger_bc 0 trigger_orbit 0'
    echo ', by its place: its id is 0x00, not 0xE8'
    zeros $(($1 - 2)) | tr '\0' '\n' | sed 's/^/id 0 data word, a guess/'
}
zeros 40960 >"$work/in"
many 4096 >"$work/many"
try '4,096 words' <"$work/many"
echo 'what follows these 4096 words is not shown' >>"$work/many"
zeros 40961 >"$work/in"
try 'a byte more' <"$work/many"
zeros 100000 >"$work/in"
try '10,000 words' <"$work/many"

echo "fields: $tried trials, $failed failed"
[ "$failed" -eq 0 ]
