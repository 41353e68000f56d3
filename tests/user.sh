#!/bin/sh
# user.sh: what a person at the bench would try with ./check, ./compare, ./write and ./run, and the answer that each must get: exit status,
# standard output, and a word on standard error wherever nothing was checked, compared or written.
#
#     tests/user.sh            the programs are proved and built by ./check, ./compare, ./write and ./run where they are not
#
# What would spoil the checkout is tried on a copy of it, in which nothing is proved at first, and by tests/scripts.sh on a small one. A line for each trial
# that fails, and for each that was left out; the last line says how many there were. Exit status 1 if one failed.
set -eu
cd "$(dirname "$(readlink -f "$0")")/.."
. tools/kit.sh
trials=user
here=$PWD
work=$(mktemp -d "${TMPDIR:-/tmp}/khandzorul-user.XXXXXX")
trap 'chmod -R u+w "$work"; rm -rf "$work"' EXIT
trap 'exit 1' HUP INT TERM
. tests/trials.sh

try() { # WHAT STATUS OUTPUT-FILE ERROR-PATTERN ARGUMENT..: of ./check
    what=$1 must=$2 expected=$3 says=$4
    shift 4
    try_command "$what" "$must" "$expected" "$says" ./check "$@"
}
refused_6() { # WHAT CAUSE FILE
    try "$1" 2 "$work/refused6" "refused 6: $2\$" "$3"
}
compared() { # WHAT FIRST SECOND LINE..: the lines that ./compare must print before the last, which counts them
    what=$1 one=$2 other=$3
    shift 3
    { for line; do echo "$line"; done; echo "differences $#"; } >"$work/lines"
    try_command "compare: $what" $(($# > 0)) "$work/lines" '' ./compare "$one" "$other"
}
not_compared() { # WHAT NUMBER WHICH CAUSE FIRST SECOND: refused, and nothing is said of the other file
    echo "refused $2 $3" >"$work/lines"
    if [ "$3" -eq 0 ]; then name=$5; else name=$6; fi
    try_command "compare: $1" 2 "$work/lines" "^compare: $name: refused $2 $3: $4\$" ./compare "$5" "$6"
    [ "$(wc -l <"$work/said")" -eq 1 ] || { wrong 'said more than that'; cat "$work/said"; }
}
unread() { # WHAT ERROR-PATTERN ARGUMENT..: what ./compare does not come to compare
    what=$1 says=$2
    shift 2
    try_command "compare: $what" 2 "$work/nothing" "$says" ./compare "$@"
}
written() { # WHAT FILE TEXT-FOR-PRINTF: the bench file that ./write must print of a text
    # shellcheck disable=SC2059 # octal escapes
    printf "$3" >"$work/script"
    try_command "write: $1" 0 "$2" '' ./write "$work/script"
}
not_written() { # WHAT NUMBER LINE TEXT-FOR-PRINTF: standard error has the refusal and why, and nothing else
    # shellcheck disable=SC2059 # octal escapes
    printf "$4" >"$work/script"
    not_written_of "$1" "$2" "$3" "$work/script"
}
not_written_of() { # WHAT NUMBER LINE SCRIPT
    try_command "write: $1" 2 "$work/nothing" "^write: $4: .*line $3 " ./write "$4"
    if [ "$(head -n 1 "$work/said")" != "refused $2 at line $3" ] || [ "$(wc -l <"$work/said")" -ne 2 ]; then
        wrong "did not say 'refused $2 at line $3' and why, but"
        cat "$work/said"
    fi
}
example() { # NAME STATUS OUTPUT-FILE: a script of examples/, written and checked
    what="write: examples/$1.stave, checked" status=0
    ./write "examples/$1.stave" 2>"$work/err" | ./check - >"$work/out" 2>>"$work/err" || status=$?
    judge "$2" "$3" ''
}
bytes() { head -c "$1" /dev/zero; }
with() { # FILE OFFSET BYTES-FOR-PRINTF HOW-MANY: the file with other bytes there
    head -c "$2" "$1"
    # shellcheck disable=SC2059 # octal escapes
    printf "$3"
    tail -c "+$(($2 + $4 + 1))" "$1"
}

: >"$work/nothing"
echo 'refused 3' >"$work/refused3"
echo 'refused 5' >"$work/refused5"
echo 'refused 6' >"$work/refused6"
echo 'refused 7' >"$work/refused7"
printf 'packet pos code first second\nrecords 0\n' >"$work/none"
for f in whole_case two_pages; do sh tools/hex.sh <"examples/$f.hex" >"$work/$f"; done
whole=$work/whole_case
./check "$whole" >/dev/null 2>"$work/err" || [ $? -eq 1 ] || { cat "$work/err"; echo "user: benchcheck is not there"; exit 1; }
./compare "$whole" "$whole" >/dev/null 2>"$work/err" || { cat "$work/err"; echo "user: compare is not there"; exit 1; }
./write examples/whole_case.stave >/dev/null 2>"$work/err" || { cat "$work/err"; echo "user: benchwrite is not there"; exit 1; }

try 'the whole case of document 01' 1 examples/whole_case.out '' "$whole"
try 'a file of three packets' 1 examples/two_pages.out '' "$work/two_pages"

# a clean one: the whole case with lane 1 active too, and the second trigger left out
printf '01000000 04000000 10000000 28000000 0000000000000000 07000000 10000000 EC0D 0000 00 02 0400
030000000000000000E0 1010EC0D0700000000E8 00000000000000000021 000000000000000001F0' | sh tools/hex.sh >"$work/clean"
try 'a file with nothing wrong' 0 "$work/none" '' "$work/clean"
echo '00000000 00000000 10000000 10000000' | sh tools/hex.sh >"$work/no_packets"
try 'a file without packets' 0 "$work/none" '' "$work/no_packets"

# 6, each cause, and each with its numbers
refused_6 'an empty file' '0 bytes; at least 16' "$work/nothing"
bytes 1 >"$work/one"
refused_6 'a file of one byte' '1 byte; at least 16' "$work/one"
head -c 15 "$whole" >"$work/fifteen"
refused_6 'a file of 15 bytes' '15 bytes; at least 16' "$work/fifteen"
(cat "$work/no_packets"; bytes 59985) >"$work/long"
refused_6 'a file of 60,001 bytes' '60,001 bytes; at most 60,000' "$work/long"
(cat "$work/no_packets"; bytes 1234551) >"$work/longer"
refused_6 'a file of a million bytes' '1,234,567 bytes; at most 60,000' "$work/longer"
bytes 16 >"$work/zeros"
refused_6 'sixteen zeros' 'not a bench file: its packet offset is 0, not 16' "$work/zeros"
echo 'no bench file at all' >"$work/text" # from byte 8: ' fil', 0x6C696620
refused_6 'a text' 'not a bench file: its packet offset is 1818846752, not 16' "$work/text"
refused_6 'a page of this repository' 'not a bench file: its packet offset is [0-9]*, not 16' README.md
refused_6 'a program' '[0-9,]* bytes; at most 60,000' /bin/sh
with "$whole" 12 '\051' 1 >"$work/offset_41"
refused_6 'a word offset of 41' 'the header says 1 packet and a word offset of 41, not 40' "$work/offset_41"
with "$whole" 0 '\377\377\377\377' 4 >"$work/packets_most"
refused_6 'a header with the most packets' 'the header says 4,294,967,295 packets and a word offset of 40, not 103079215096' "$work/packets_most"
head -c 89 "$whole" >"$work/short"
refused_6 'a file that lost its last byte' 'the header says 5 words, 89 bytes are there, not 90' "$work/short"
with "$whole" 4 '\001' 1 >"$work/one_word"
refused_6 'a file whose header counts one word' 'the header says 1 word, 90 bytes are there, not 50' "$work/one_word"
with "$whole" 4 '\377\377\377\377' 4 >"$work/words_most"
refused_6 'a header with the most words' 'the header says 4,294,967,295 words, 90 bytes are there, not 42,949,672,990' "$work/words_most"
what='a file of 60,001 bytes, through a pipe' status=0
# shellcheck disable=SC2002 # a pipe is what is tried
cat "$work/long" | ./check - >"$work/out" 2>"$work/err" || status=$?
judge 2 "$work/refused6" 'standard input: refused 6: 60,001 bytes; at most 60,000$'
what='the same on standard input' status=0
./check - <"$work/long" >"$work/out" 2>"$work/err" || status=$?
judge 2 "$work/refused6" 'standard input: refused 6: 60,001 bytes; at most 60,000$'
refused_6 'a device without end' '10,000,000 bytes or more; at most 60,000' /dev/zero

# otherwise damaged: a byte changed in a packet, in a word
with "$whole" 38 '\004' 1 >"$work/four_words"
try 'a file whose packet counts a word less' 2 "$work/refused7" "don't sum up" "$work/four_words"
with "$whole" 37 '\001' 1 >"$work/format_1"
try 'a packet of format 1' 2 "$work/refused5" 'out of its range' "$work/format_1"
with "$whole" 69 '\042' 1 >"$work/lane_2"
sed 's/^1 84 1072 1 1$/1 84 1072 2 1/' examples/whole_case.out >"$work/lane_2.out"
try 'another lane in the whole case' 1 "$work/lane_2.out" '' "$work/lane_2"
# 4,097 words in the header and in the packet
(printf '01000000 01100000 10000000 28000000 0000000000000000 07000000 10000000 EC0D 0000 00 02 0110' | sh tools/hex.sh; bytes 40970) >"$work/full"
try 'a packet of 4,097 words' 2 "$work/refused3" 'more than 4,096 words' "$work/full"

# The largest file: 16 + 6 * 24 + 5984 * 10 = 60,000 bytes, six packets of 1,000 words, the last of 984, and every word is nine zeros and 0x47.
# By 01: the first is taken as an IHW of another id (30, 1), the second as a TDH of another id (40, 1) with no bit set, so that the packet, which
# is all zeros too, differs in nothing. All that follow stand in the data section: 0x47 is unknown there (991) and no data id (70); its top bits
# are those of an outer lane, 7 + 0x47 mod 72 = 78, above 27 (1074), and its input, 0x47 mod 8, is 7 (1073).
{
    printf '06000000 60170000 10000000 A0000000'
    for i in 0 1 2 3 4 5; do printf ' 00000%s0000000000 00000000 00000000 0000 0000 00 02 %s' "$i" "$([ "$i" -eq 5 ] && echo D803 || echo E803)"; done
} | sh tools/hex.sh >"$work/largest"
(bytes 9; printf '\107') >"$work/words"
while [ "$(wc -c <"$work/words")" -lt 59840 ]; do cat "$work/words" "$work/words" >"$work/twice"; mv "$work/twice" "$work/words"; done
head -c 59840 "$work/words" >>"$work/largest"
[ "$(wc -c <"$work/largest")" -eq 60000 ] || { what='the largest file'; wrong 'is not 60,000 bytes'; }
awk 'BEGIN {
    print "packet pos code first second"
    for (w = 0; w < 5984; w++) {
        p = int(w / 1000)
        at = (p + 1) " " (p * 65536 + 64 + w % 1000 * 10)
        if (w == 0) { print at, 30, 1, 0; n++ }
        else if (w == 1) { print at, 40, 1, 0; n++ }
        else { print at, 991, 71, 0; print at, 70, 71, 0; print at, 1074, 78, 0; print at, 1073, 7, 0; n += 4 }
    }
    print "records " n
}' >"$work/largest.out"
[ "$(tail -n 1 "$work/largest.out")" = "records $((2 + 5982 * 4))" ] || { what='the largest file'; wrong 'its records are counted wrong here'; }
try 'the largest file, every word wrong' 1 "$work/largest.out" '' "$work/largest"

try 'a folder' 2 "$work/nothing" 'is a folder' "$work"
try 'a file that is not there' 2 "$work/nothing" 'no such file' "$work/nowhere"
try 'no file named' 2 "$work/nothing" 'usage'
try 'two files' 2 "$work/nothing" 'usage' "$whole" "$whole"
try 'a name with a blank and a quote' 2 "$work/nothing" 'no such file' "$work/it's not"
cp "$whole" "$work/it's here"
try 'a file whose name has a blank and a quote' 1 examples/whole_case.out '' "$work/it's here"

what='standard input' status=0
./check - <"$whole" >"$work/out" 2>"$work/err" || status=$?
judge 1 examples/whole_case.out ''
what='a pipe' status=0
# shellcheck disable=SC2002 # a pipe is what is tried
cat "$whole" | ./check - >"$work/out" 2>"$work/err" || status=$?
judge 1 examples/whole_case.out ''
what='in pieces: cut in the header, in the packet, in a word' status=0
(head -c 7 "$whole"; sleep 1; tail -c +8 "$whole" | head -c 20; sleep 1; tail -c +28 "$whole" | head -c 42; sleep 1; tail -c +70 "$whole") |
    ./check - >"$work/out" 2>"$work/err" || status=$?
judge 1 examples/whole_case.out ''
what='the largest file in pieces' status=0
(head -c 20011 "$work/largest"; sleep 1; tail -c +20012 "$work/largest" | head -c 39988; sleep 1; tail -c 1 "$work/largest") |
    ./check - >"$work/out" 2>"$work/err" || status=$?
judge 1 "$work/largest.out" ''
what='closed standard input' status=0
./check - <&- >"$work/out" 2>"$work/err" || status=$?
judge 2 "$work/nothing" 'closed'
what='a folder on standard input' status=0
./check - <. >"$work/out" 2>"$work/err" || status=$?
judge 2 "$work/nothing" 'could not be read'
if [ -w /dev/full ]; then
    what='a full disk' status=0
    ./check "$whole" >/dev/full 2>"$work/err" || status=$?
    : >"$work/out"
    judge 2 "$work/nothing" 'could not be printed'
else
    left_out 'a full disk (no /dev/full)'
fi
what='closed standard output' status=0
./check "$whole" 2>"$work/err" >&- || status=$?
: >"$work/out"
judge 2 "$work/nothing" 'could not be printed'

# ./compare. The whole case has one packet, its fields from byte 16 and its word count at 38, and five words from byte 40.
data=crates/compare/data
try_command 'compare: the files of its folder' 1 crates/compare/stdout '' ./compare $data/first.bench $data/second.bench
awk '$1 != "differences" { n = $NF; $NF = $(NF - 1); $(NF - 1) = n } 1' crates/compare/stdout >"$work/swapped"
try_command 'compare: the second before the first' 1 "$work/swapped" '' ./compare $data/second.bench $data/first.bench
cp "$whole" "$work/whole_again"
compared 'a file and itself' "$whole" "$whole"
compared 'a file and a copy of it' "$whole" "$work/whole_again"
compared 'two files without packets' "$work/no_packets" "$work/no_packets"
compared 'a byte of a word' "$whole" "$work/lane_2" 'byte 0 2 9 33 34'
compared 'the same, the other before' "$work/lane_2" "$whole" 'byte 0 2 9 34 33'
with "$whole" 32 '\306\000' 2 >"$work/bc_198"
compared 'a field of a packet' "$whole" "$work/bc_198" 'field 0 3 3564 198'
with "$whole" 16 '\000\000\000\000\000\000\000\100' 8 >"$work/far" # 2 to the 62nd
compared 'the largest position' "$work/far" "$whole" 'field 0 0 4611686018427387904 0'
(with "$whole" 0 '\002\000\000\000\005\000\000\000\020\000\000\000\100' 13 | head -c 40; bytes 24; tail -c 50 "$whole") >"$work/two_packets"
compared 'a packet more, without words' "$whole" "$work/two_packets" 'packets 1 2'
compared 'a packet less' "$work/two_packets" "$whole" 'packets 2 1'
with "$whole" 4 '\006' 1 >"$work/six"
(with "$work/six" 38 '\006' 1; bytes 10) >"$work/six_words"
compared 'a word more' "$whole" "$work/six_words" 'words 5 6' 'count 0 5 6'
compared 'no packet and one' "$work/no_packets" "$whole" 'packets 0 1' 'words 0 5'
# two packets and three words, whose last bytes are 1, 2 and 3; the second word is the second packet's first, or the first packet's second
for n in 1 2; do
    {
        echo '02000000 03000000 10000000 40000000'
        for count in "$n" $((3 - n)); do echo "0000000000000000 00000000 00000000 0000 0000 00 00 0${count}00"; done
        for byte in 1 2 3; do echo "0000000000000000000$byte"; done
    } | sh tools/hex.sh >"$work/split_$n"
done
compared 'a word in another packet' "$work/split_1" "$work/split_2" 'count 0 1 2' 'count 1 2 1' 'byte 1 0 9 2 3'

# the largest: 16 + 24 + 2,796 * 10 = 28,000 bytes, every byte of a word another; and 16 + 1,166 * 24 = 28,000, without words
printf '01000000 EC0A0000 10000000 28000000 0000000000000000 07000000 10000000 EC0D 0000 00 02 EC0A' | sh tools/hex.sh >"$work/head"
(cat "$work/head"; bytes 27960) >"$work/zeros_28000"
(cat "$work/head"; bytes 27960 | tr '\000' '\377') >"$work/ones_28000"
awk 'BEGIN {
    for (w = 0; w < 2796; w++) for (k = 0; k < 10; k++) print "byte 0", w, k, 0, 255
    print "differences 27960"
}' >"$work/all_bytes"
try_command 'compare: 28,000 bytes, every byte of a word another' 1 "$work/all_bytes" '' ./compare "$work/zeros_28000" "$work/ones_28000"
compared '28,000 bytes and a copy' "$work/zeros_28000" "$work/zeros_28000"
(printf '8E040000 00000000 10000000 606D0000' | sh tools/hex.sh; bytes 27984) >"$work/packets_28000"
with "$work/packets_28000" 27996 '\001\002' 2 >"$work/last_packet"
compared '28,000 bytes of packets, the last another' "$work/packets_28000" "$work/last_packet" 'field 1165 5 0 1' 'field 1165 6 0 2'
(cat "$work/zeros_28000"; bytes 1) >"$work/bytes_28001"
for f in zeros ones packets; do
    [ "$(wc -c <"$work/${f}_28000")" -eq 28000 ] || { what="$f"; wrong 'is not 28,000 bytes'; }
done

# refused, each way; 3 can't be, where 28,000 bytes have no room for a packet of 4,097 words
not_compared 'the first of 28,001 bytes' 6 0 '28,001 bytes; at most 28,000' "$work/bytes_28001" "$work/zeros_28000"
not_compared 'the second of 28,001 bytes' 6 1 '28,001 bytes; at most 28,000' "$work/zeros_28000" "$work/bytes_28001"
not_compared 'a packet of 4,097 words' 6 0 '41,010 bytes; at most 28,000' "$work/full" "$whole"
not_compared 'a file of a million bytes' 6 1 '1,234,567 bytes; at most 28,000' "$whole" "$work/longer"
not_compared 'a device without end' 6 1 '10,000,000 bytes or more; at most 28,000' "$whole" /dev/zero
not_compared 'an empty file' 6 0 '0 bytes; at least 16' "$work/nothing" "$whole"
not_compared 'an empty file second' 6 1 '0 bytes; at least 16' "$whole" "$work/nothing"
not_compared 'two empty files' 6 0 '0 bytes; at least 16' "$work/nothing" "$work/nothing"
not_compared 'a text' 6 1 'not a bench file: its packet offset is 1818846752, not 16' "$whole" "$work/text"
not_compared 'a word offset of 41' 6 0 'the header says 1 packet and a word offset of 41, not 40' "$work/offset_41" "$whole"
not_compared 'a file that lost its last byte' 6 1 'the header says 5 words, 89 bytes are there, not 90' "$whole" "$work/short"
sum="its packets' word counts don't sum up to the header's"
not_compared 'a packet that counts a word less' 7 0 "$sum" "$work/four_words" "$whole"
not_compared 'a packet that counts a word less second' 7 1 "$sum" "$whole" "$work/four_words"
with "$whole" 38 '\001\020' 2 >"$work/says_4097"
not_compared 'a packet that counts 4,097 words and has five' 7 0 "$sum" "$work/says_4097" "$whole"
not_compared 'a packet of format 1' 5 0 'a field of a packet is out of its range' "$work/format_1" "$whole"
not_compared 'a packet of format 1 second' 5 1 'a field of a packet is out of its range' "$whole" "$work/format_1"
not_compared 'both refused, 7 and 6' 7 0 "$sum" "$work/four_words" "$work/short"
not_compared 'both refused, 6 and 5' 6 0 'the header says 5 words, 89 bytes are there, not 90' "$work/short" "$work/format_1"

unread 'a folder' "^compare: $work is a folder" "$work" "$whole"
unread 'a folder second' "^compare: $work is a folder" "$whole" "$work"
unread 'a file that is not there' "^compare: $work/nowhere: no such file" "$work/nowhere" "$whole"
unread 'a file that is not there second' "^compare: $work/nowhere: no such file" "$whole" "$work/nowhere"
unread 'no file named' '^usage: ./compare FIRST SECOND '
unread 'one file' '^usage' "$whole"
unread 'three files' '^usage' "$whole" "$whole" "$whole"
unread 'standard input twice' '^usage' - -
compared 'a file whose name has a blank and a quote' "$work/it's here" "$work/lane_2" 'byte 0 2 9 33 34'

printf 'byte 0 2 9 33 34\ndifferences 1\n' >"$work/one_byte"
printf 'byte 0 2 9 34 33\ndifferences 1\n' >"$work/one_byte_back"
what='compare: standard input first' status=0
./compare - "$work/lane_2" <"$whole" >"$work/out" 2>"$work/err" || status=$?
judge 1 "$work/one_byte" ''
what='compare: a pipe second, in pieces' status=0
(head -c 7 "$whole"; sleep 1; tail -c +8 "$whole") | ./compare "$work/lane_2" - >"$work/out" 2>"$work/err" || status=$?
judge 1 "$work/one_byte_back" ''
what='compare: 28,001 bytes through a pipe' status=0
echo 'refused 6 1' >"$work/lines"
# shellcheck disable=SC2002 # a pipe is what is tried
cat "$work/bytes_28001" | ./compare "$whole" - >"$work/out" 2>"$work/err" || status=$?
judge 2 "$work/lines" '^compare: standard input: refused 6 1: 28,001 bytes; at most 28,000$'
what='compare: closed standard input' status=0
./compare "$whole" - <&- >"$work/out" 2>"$work/err" || status=$?
judge 2 "$work/nothing" '^compare: standard input is closed'
what='compare: closed standard input that is not asked for' status=0
./compare "$whole" "$work/lane_2" <&- >"$work/out" 2>"$work/err" || status=$?
judge 1 "$work/one_byte" ''
what='compare: a folder on standard input' status=0
./compare - "$whole" <. >"$work/out" 2>"$work/err" || status=$?
judge 2 "$work/nothing" '^compare: standard input could not be read'
if [ -w /dev/full ]; then
    what='compare: a full disk' status=0
    ./compare "$whole" "$whole" >/dev/full 2>"$work/err" || status=$?
    : >"$work/out"
    judge 2 "$work/nothing" '^compare: the result could not be printed'
else
    left_out 'compare: a full disk (no /dev/full)'
fi
what='compare: closed standard output' status=0
./compare "$whole" "$whole" 2>"$work/err" >&- || status=$?
: >"$work/out"
judge 2 "$work/nothing" '^compare: the result could not be printed'
# Another file is put in its place, by mv, as soon as it began: either is compared, and nothing between. One that is written anew where it
# stands may be read half written; once it is read it is not looked at again, which is tried below.
cp "$whole" "$work/changing"
cp "$work/lane_2" "$work/changed"
background changing ./compare "$whole" "$work/changing" &
mv "$work/changed" "$work/changing"
wait
what='compare: a file in whose place another is put'
echo 'differences 0' >"$work/equal"
background_ended changing
if [ "$status" -eq 0 ]; then judge 0 "$work/equal" ''; else judge 1 "$work/one_byte" ''; fi

# ./write. Each example, and what ./check must say of it: of the run of last spring, its third packet at 2000, 1045 at the second trigger and at the third.
example clean_inner 0 "$work/none"
example clean_outer 0 "$work/none"
example calibration 0 "$work/none"
printf 'packet pos code first second\n1 104 1045 3366 3564\n3 2074 1045 3564 198\nrecords 2\n' >"$work/spring"
example last_spring 1 "$work/spring"
example whole_case 1 examples/whole_case.out

# the whole case in other forms, each the same ninety bytes
text=examples/whole_case.stave
same() { # WHAT: of the text in $work/script
    try_command "write: the whole case, $1" 0 "$whole" '' ./write "$work/script"
}
cp $text "$work/script"
same 'as it stands'
printf %s "$(cat $text)" >"$work/script"
same 'no newline at its end'
awk '{ printf "%s\r\n", $0 }' $text >"$work/script"
same 'lines that end in CR LF'
tr ' ' '\t' <$text >"$work/script"
same 'tabs'
awk '{ print "\n \t\r \n# packet\n"; gsub(" ", " \t\r  "); print "  " $0 "\t # ihw 2 # ihw 3" }' $text >"$work/script"
same 'blanks, empty lines and comments'
sed 's/$/ # XY/' $text | tr XY '\377\000' >"$work/script"
same 'bytes that are no ASCII in comments'
(printf '#'; bytes 1000000 | tr '\000' x; cat $text) >"$work/script"
same 'a comment of a megabyte'
printf 'packet 0x0 007 0x0010 0xdeC 0 00 0x00000000000000000002\nihw 0000000000000000000000000001\ntdh 16 1 0 0 0xDEC 7\n%s\n%s\n%s' \
    'data 33 0 0x0 0 0 0 0 0 0 00' 'tdt 0x0 0 0 0 0 0 1' 'tdh 0x010 0x1 1 0x00 0xc6 7' >"$work/script"
same 'numbers spelled otherwise'
(printf 'packet 0 7 0x10 3564 0 0 2%s#\n' "$(bytes 486 | tr '\000' ' ')"; tail -n +3 $text) >"$work/script" # the first 26 bytes and 486 blanks
same '512 bytes before #'

written 'an empty text' "$work/no_packets" ''
written 'comments alone' "$work/no_packets" '# a stave\n\n   # to come'
written 'a newline alone' "$work/no_packets" '\n'
# one packet and one word; and the packet alone
head='packet 0 7 0x10 100 0 0 2'
fields='0000000000000000 07000000 10000000 6400 0000 00 02'
echo "01000000 00000000 10000000 28000000 $fields 0000" | sh tools/hex.sh >"$work/one_packet"
echo "01000000 01000000 10000000 28000000 $fields 0100 010000000000000000E0" | sh tools/hex.sh >"$work/one_ihw"
written 'a text that ends behind a packet' "$work/one_packet" "$head"
written 'a text that ends within its words' "$work/one_ihw" "$head\nihw 1"
with "$work/one_packet" 16 '\000\000\000\000\000\000\000\100' 8 >"$work/far_packet" # 2 to the 62nd
written 'the largest position' "$work/far_packet" 'packet 0x4000000000000000 7 16 100 0 0 2'

# 102: the line can't be read
for token in +1 -1 0X10 0x 0xG 1a 1.0 18446744073709551616 0x10000000000000000 00018446744073709551616 36893488147419103233 \
    '\303\244' '1\000' '1\0132' '1\f'; do
    not_written "the number $token" 102 2 "$head\nihw $token\n"
done
not_written 'too few numbers' 102 1 'packet 0 7 0x10 100 0 0\n'
not_written 'too many numbers' 102 2 "$head\nihw 1 1\n"
not_written 'eleven numbers' 102 3 "$head\nihw 1\ndata 0x20 0 0 0 0 0 0 0 0 0 0\n"
not_written 'a kind without numbers' 102 2 "$head\nihw\n"
not_written 'a kind in capitals' 102 2 "$head\nIHW 1\n"
not_written 'a kind that is none' 102 2 "$head\nstave 1\n"
not_written 'a NUL byte' 102 3 "$head\nihw 1\n\000\n"
not_written 'CR alone between lines' 102 1 "$head\rihw 1\r"
not_written 'a text in UTF-16' 102 1 '\377\376p\000a\000c\000k\000e\000t\000\n\000'
(echo "$head"; bytes 513 | tr '\000' ' '; echo '# blanks') >"$work/blanks_513"
not_written_of '513 blanks before #' 102 2 "$work/blanks_513"
(printf 'packet 0 7 0x10 3564 0 0 2%s' "$(bytes 486 | tr '\000' ' ')"; printf '\r\nihw 1\n') >"$work/cr_513"
not_written_of 'a line of 513 bytes with its CR' 102 1 "$work/cr_513"
(echo "$head"; bytes 1000000 | tr '\000' ' ') >"$work/blanks"
not_written_of 'a megabyte of blanks' 102 2 "$work/blanks"
(echo "$head"; bytes 1000000 | tr '\000' a) >"$work/letters"
not_written_of 'a megabyte of letters' 102 2 "$work/letters"
not_written_of 'a bench file' 102 1 "$whole"

# the others, and which comes first
not_written 'an IHW of 29 lanes' 8 2 "$head\nihw 0x10000000\n"
not_written 'a flag of 2' 8 3 "$head\nihw 1\ntdh 0x10 2 0 0 100 7\n"
not_written 'a byte of 256' 8 2 "$head\ndata 0x20 0 0 0 0 0 0 0 0 256\n"
not_written 'a data id that is none' 8 2 "$head\ndata 0x29 0 0 0 0 0 0 0 0 0\n"
for most in 18446744073709551615 0xFFFFFFFFFFFFFFFF; do
    not_written "the number $most in a word" 8 2 "$head\nihw $most\n"
    not_written "the number $most in a packet" 5 1 "packet $most 7 16 100 0 0 2\n"
done
not_written 'a position past the largest' 5 1 'packet 0x4000000000000001 7 16 100 0 0 2\n'
not_written 'an orbit of 33 bits' 5 1 'packet 0 0x100000000 16 100 0 0 2\n'
not_written 'a packet of format 1' 5 3 '# two comments\n#\npacket 0 7 16 100 0 0 1\n'
not_written 'a word before any packet' 2 3 '# no packet\n\nihw 1\n'
not_written 'a wide field before any packet' 8 1 'ihw 0x10000000\n'
not_written 'an unread word before any packet' 102 1 'ihw 0x10000000 1\n'
not_written 'a packet out of range, with a number too many' 102 1 'packet 0 7 16 4096 0 0 2 0\n'
not_written 'two bad lines' 8 2 "$head\nihw 0x10000000\nstave\n"
not_written 'two bad lines, the other before' 102 2 "$head\nstave\nihw 0x10000000\n"

# A packet's 4,096 words, each an IHW with lane 0.
printf '\001\000\000\000\000\000\000\000\000\340' >"$work/ihws"
for i in 1 2 3 4 5 6 7 8 9 10 11 12; do cat "$work/ihws" "$work/ihws" >"$work/twice"; mv "$work/twice" "$work/ihws"; done
(echo "01000000 00100000 10000000 28000000 $fields 0010" | sh tools/hex.sh; cat "$work/ihws") >"$work/file_4096"
ihws() { awk -v n="$1" 'BEGIN { while (n-- > 0) print "ihw 1" }'; }
(echo "$head"; ihws 4096) >"$work/most"
try_command 'write: 4,096 words in a packet' 0 "$work/file_4096" '' ./write "$work/most"
(cat "$work/most"; echo 'ihw 1') >"$work/script_4097"
not_written_of '4,097 words in a packet' 3 4098 "$work/script_4097"
(cat "$work/most"; echo 'ihw 0x10000000') >"$work/wide_4097"
not_written_of 'the 4,097th too wide' 8 4098 "$work/wide_4097"
(echo "$head"; ihws 1897; cat "$work/script_4097") >"$work/both" # the 5,994th word: 3, and 60,004 bytes
not_written_of '4,097 words in a packet, and the file too long' 3 5996 "$work/both"

# the largest file of above, with an id that can be written: six packets and 5,984 words are 60,000 bytes
tr '\107' '\106' <"$work/largest" >"$work/file_60000"
awk 'BEGIN {
    for (w = 0; w < 5984; w++) {
        if (w % 1000 == 0) print "packet", w / 1000 * 65536, "0 0 0 0 0 2"
        print "data 0x46 0 0 0 0 0 0 0 0 0"
    }
}' >"$work/longest"
try_command 'write: the largest file' 0 "$work/file_60000" '' ./write "$work/longest"
for more in '6 ihw 1' '6 packet 0 0 0 0 0 0 0' '8 ihw 0x10000000' '5 packet 0 0 0 0 0 0 1' '102 ihw'; do
    (cat "$work/longest"; echo "${more#* }") >"$work/longer_script"
    not_written_of "the largest file and a line more: ${more#* }" "${more%% *}" 5991 "$work/longer_script"
done

what='write: standard input' status=0
./write - <$text >"$work/out" 2>"$work/err" || status=$?
judge 0 "$whole" ''
what='write: in pieces: cut in a number, in a name, between CR and LF' status=0
(printf 'packet 0 7 16 10'; sleep 1; printf '0 0 0 2\r'; sleep 1; printf '\nih'; sleep 1; printf 'w 1') | ./write - >"$work/out" 2>"$work/err" || status=$?
judge 0 "$work/one_ihw" ''
what='write: a text without end' status=0
yes | ./write - >"$work/out" 2>"$work/err" || status=$?
judge 2 "$work/nothing" '^refused 102 at line 1$'
what='write: a line without end' status=0
(echo 'packet 0 7 16 100 0 0 2'; yes 'ihw 1' | tr '\n' ' ') | ./write - >"$work/out" 2>"$work/err" || status=$?
judge 2 "$work/nothing" '^refused 102 at line 2$'
try_command 'write: a device without end' 2 "$work/nothing" '^refused 102 at line 1$' ./write /dev/zero
what='write: closed standard input' status=0
./write - <&- >"$work/out" 2>"$work/err" || status=$?
judge 2 "$work/nothing" '^write: standard input is closed'
what='write: a folder on standard input' status=0
./write - <. >"$work/out" 2>"$work/err" || status=$?
judge 2 "$work/nothing" '^write: standard input could not be read'
unwritten() { # WHAT ERROR-PATTERN ARGUMENT..
    what=$1 says=$2
    shift 2
    try_command "write: $what" 2 "$work/nothing" "$says" ./write "$@"
}
unwritten 'a folder' "^write: $work is a folder" "$work"
unwritten 'a file that is not there' "^write: $work/nowhere: no such file" "$work/nowhere"
unwritten 'no file named' '^usage: ./write SCRIPT > FILE '
unwritten 'two files' '^usage' $text $text
if [ -w /dev/full ]; then
    what='write: a full disk' status=0
    ./write $text >/dev/full 2>"$work/err" || status=$?
    : >"$work/out"
    judge 2 "$work/nothing" '^write: the result could not be printed'
else
    left_out 'write: a full disk (no /dev/full)'
fi
what='write: closed standard output' status=0
./write $text 2>"$work/err" >&- || status=$?
: >"$work/out"
judge 2 "$work/nothing" '^write: the result could not be printed'
short_of_room() { # a file may have 100 blocks of 512 bytes, which is room for the program and not for what it writes
    trap '' XFSZ
    ulimit -f 100
    ./write "$work/longest"
}
what='write: no room for the file in the temporary folder' status=0
(short_of_room) >"$work/out" 2>"$work/err" || status=$?
judge 2 "$work/nothing" '^write: the file is not whole'

# from elsewhere, by its path and by links
mkdir "$work/elsewhere"
ln -s "$here/check" "$work/elsewhere/look"
ln -s look "$work/elsewhere/look again"
ln -s "$here/run" "$work/elsewhere/start"
ln -s "$here/compare" "$work/elsewhere/set side by side"
ln -s "$here/write" "$work/elsewhere/put down"
cp $text "$work/elsewhere/a stave"
cp "$whole" "$work/elsewhere/file"
cp "$work/lane_2" "$work/elsewhere/-e"
cp "$work/lane_2" "$work/elsewhere/a name with blanks"
mkdir "$work/elsewhere/tmp"
cd "$work/elsewhere"
try_command 'from another folder' 1 "$here/examples/whole_case.out" '' "$here/check" file
try_command 'through a link' 1 "$here/examples/whole_case.out" '' ./look file
try_command 'through a link to a link' 1 "$here/examples/whole_case.out" '' './look again' file
try_command 'compare: from another folder' 1 "$work/one_byte" '' "$here/compare" file 'a name with blanks'
try_command 'compare: through a link, a name that begins with -' 1 "$work/one_byte_back" '' './set side by side' -e file
try_command 'compare: a temporary folder named from there' 1 "$work/one_byte" '' env TMPDIR=tmp "$here/compare" file -e
rmdir tmp || wrong 'left something in it'
try_command 'compare: no temporary folder' 2 "$work/nothing" '^compare: no temporary folder' env TMPDIR=nowhere "$here/compare" file -e
try_command 'write: from another folder, through a link' 0 "$whole" '' './put down' 'a stave'
try_command 'run vectors' 0 "$here/crates/vectors/stdout" '' "$here/run" vectors
try_command 'run edges, through a link' 0 "$here/crates/edges/stdout" '' ./start edges
cd "$here"
what='run fields' status=0
./run fields <crates/fields/stdin >"$work/out" 2>"$work/err" || status=$?
judge 0 crates/fields/stdout ''
what='run benchwrite' status=0
./run benchwrite <crates/benchwrite/stdin >"$work/out" 2>"$work/err" || status=$?
judge 0 crates/benchwrite/stdout ''
try_command 'run compare' 0 crates/compare/stdout '' ./run compare
try_command 'run a program that is none' 2 "$work/nothing" \
    "no program 'nowhere' here; the programs are benchcheck benchwrite compare edges fields vectors" ./run nowhere
try_command 'run a library' 2 "$work/nothing" "no program 'words' here" ./run words
try_command 'run an empty name' 2 "$work/nothing" "no program '' here" ./run ''
try_command 'run a path' 2 "$work/nothing" "no program '../crates/fields' here" ./run ../crates/fields
try_command 'run without a name' 2 "$work/nothing" 'usage' ./run

# what they say of themselves; elsewhere, where only what they print of themselves can help
for command in check compare write run test tools/native-lib.sh tools/must-fail.sh; do
    kit_help "$command" >"$work/help"
    what="$command: its head"
    grep -q "^\(${command##*/}\|The tests\)" "$work/help" || wrong 'has no line that says what it is'
    try_command "$command --help" 0 "$work/help" '' "./$command" --help
    try_command "$command -h" 0 "$work/help" '' "./$command" -h
done
{
    grep -m 1 '^## ' CHANGELOG.md | sed 's/^## /khandzorul /; s/,.*//'
    echo "Rattle kit: $(rt version)"
} >"$work/version"
for command in check compare write run test; do
    what="$command --version" status=0
    "./$command" --version >"$work/seen" 2>"$work/err" || status=$?
    sed 's/; the README names .*//' "$work/seen" >"$work/out"
    judge 0 "$work/version" ''
done

# the box of README, as a reader copies it
if command -v "${CC:-cc}" >/dev/null 2>&1; then
    # shellcheck disable=SC2016 # README's backquotes
    sed -n '/^```c$/,/^```$/p' README.md | grep -v '^```' >"$work/box.c"
    what="README's box example"
    [ -s "$work/box.c" ] || wrong 'is not there'
    try_command "README's box example" 0 "$work/nothing" '' \
        "${CC:-cc}" -std=c99 -Wall -Wextra -Wpedantic -Werror -I include -c "$work/box.c" -o "$work/box.o"
else
    left_out "README's box example (no C compiler)"
fi

# and its script
sed -n '/^packet 0 7 /,/^tdt /p' README.md >"$work/script"
what="README's script, checked" status=0
./write "$work/script" 2>"$work/err" | ./check - >"$work/out" 2>>"$work/err" || status=$?
judge 0 "$work/none" ''
[ "$(grep -c . "$work/script")" -eq 5 ] || wrong 'has not five lines'

# the library for another target; the one for this machine can be run
lib() { tools/native-lib.sh "$@" khandzorul "$work/lib.a"; }
for target in thumbv7em-none-eabi riscv64-unknown-elf; do
    echo "native-lib: khandzorul, proved, for $target: no one vouches for it, and nothing of it was run" >"$work/made"
    try_command "the library for $target" 0 "$work/made" '' lib --target "$target" -Oz
done
try_command 'the library for a big-endian target' 2 "$work/nothing" 'not little-endian' lib --target s390x-linux-gnu
try_command 'the library for a target that is none' 2 "$work/nothing" 'no target nowhere' lib --target nowhere
try_command 'the library for no target' 2 "$work/nothing" 'usage' tools/native-lib.sh --target
if command -v "${CC:-cc}" >/dev/null 2>&1; then
    for level in -O3 -Oz; do
        what="calls by example, this machine as a target, $level" status=0
        lib --target x86_64-unknown-linux-gnu "$level" >"$work/err" 2>&1 &&
            "${CC:-cc}" -std=c11 -I include tests/boundary.c "$work/lib.a" -o "$work/boundary" 2>>"$work/err" &&
            "$work/boundary" >"$work/out" 2>>"$work/err" || status=$?
        [ "$status" -ne 0 ] || : >"$work/err"
        sed -n '$s/: [0-9]* checks/: checks/p' "$work/out" >"$work/seen"
        mv "$work/seen" "$work/out"
        echo 'boundary: checks, 0 failed' >"$work/passed"
        judge 0 "$work/passed" ''
    done
else
    left_out 'the library for this machine as a target (no C compiler)'
fi

# a program that prints nothing says nothing of the files: here since a cp takes its second file away
mkdir "$work/taking"
# shellcheck disable=SC2016 # the other shell's
printf '%s\n' '#!/bin/sh' 'PATH=${PATH#*:}' 'cp "$@" && rm -f "${2%/*}/second.bench"' >"$work/taking/cp"
chmod +x "$work/taking/cp"
try_command 'compare: a copy that is lost' 2 "$work/nothing" '^compare: the program could not read a file' \
    env PATH="$work/taking:$PATH" ./compare "$whole" "$whole"

# A copy of the checkout, where no program is: four files at once, one run proves and builds it, the others wait.
copy=$work/copy
mkdir -p "$copy/crates" "$copy/.git" # it is the top of a repository
cp -Rp check compare write run README.md CHANGELOG.md crates.txt tools "$copy"
for d in crates/*; do
    mkdir "$copy/$d"
    for part in src specs proofs; do [ ! -d "$d/$part" ] || cp -Rp "$d/$part" "$copy/$d"; done
done
at_once() { # FILE STATUS ERROR-PATTERN
    what="four at once, the program lost: $1"
    background_ended "$1"
    judge "$2" "$work/$1.out" "$3"
}
for f in whole_case two_pages clean short; do background "$f" "$copy/check" "$work/$f" & done
wait
cp "$work/none" "$work/clean.out"
cp "$work/refused6" "$work/short.out"
cp examples/*.out "$work"
at_once whole_case 1 ''
at_once two_pages 1 ''
at_once clean 0 ''
at_once short 2 'refused 6'
# the same of ./compare, each with another answer
background whole_again "$copy/compare" "$whole" "$work/whole_again" &
background lane_2 "$copy/compare" "$whole" "$work/lane_2" &
background two_packets "$copy/compare" "$whole" "$work/two_packets" &
background short "$copy/compare" "$whole" "$work/short" &
wait
cp "$work/equal" "$work/whole_again.out"
cp "$work/one_byte" "$work/lane_2.out"
printf 'packets 1 2\ndifferences 1\n' >"$work/two_packets.out"
echo 'refused 6 1' >"$work/short.out"
at_once whole_again 0 ''
at_once lane_2 1 ''
at_once two_packets 1 ''
at_once short 2 'refused 6 1'
# the same of ./write
for f in nothing longest blanks_513 script_4097; do background "$f" "$copy/write" "$work/$f" & done
wait
cp "$work/no_packets" "$work/nothing.out"
cp "$work/file_60000" "$work/longest.out"
for f in blanks_513 script_4097; do : >"$work/$f.out"; done
at_once nothing 0 ''
at_once longest 0 ''
at_once blanks_513 2 '^refused 102 at line 2$'
at_once script_4097 2 '^refused 3 at line 4098$'
# an empty program is built again
: >"$copy/crates/compare/out/compare"
try_command 'compare: an empty program' 1 "$work/one_byte" '' "$copy/compare" "$whole" "$work/lane_2"
: >"$copy/crates/benchcheck/out/benchcheck"
try_command 'an empty program' 1 examples/whole_case.out '' "$copy/check" "$whole"

# a user who can't write the folder
if may_read_only "$copy" "$whole"; then
    read_only "a folder that can't be written, proved" 1 examples/whole_case.out "note: $cannot: benchcheck is run as it was" "$copy/check" -
    read_only "compare there, proved" 1 "$work/one_byte" "note: $cannot: compare is run as it was" "$copy/compare" - "$work/lane_2"
    cp $text "$work/stave"
    read_only "write there, proved" 0 "$whole" "note: $cannot: benchwrite is run as it was" "$copy/write" "$work/stave"
    cp "$whole" "$work/locked"
    chmod 000 "$work/locked"
    locked="^compare: $work/locked can't be read"
    read_only "compare: a file that can't be read" 2 "$work/nothing" "$locked" "$copy/compare" "$work/locked" -
    read_only "compare: a second file that can't be read" 2 "$work/nothing" "$locked" "$copy/compare" - "$work/locked"
    read_only "run there what is not proved" 2 "$work/nothing" "$cannot, and edges is not proved" "$copy/run" edges
    echo '// A line more.' >>"$copy/crates/report/src/lib.rt"
    read_only 'the same, changed since' 2 "$work/nothing" 'not proved there since crates/report/src.* was changed' "$copy/check" -
    rm "$copy/crates/benchcheck/out/benchcheck"
    read_only 'the same, the program lost' 2 "$work/nothing" "$cannot, and benchcheck is not" "$copy/check" -
    rm "$copy/crates/compare/out/compare"
    read_only 'compare there, the program lost' 2 "$work/nothing" "$cannot, and compare is not" "$copy/compare" - "$whole"
    rm -rf "$copy"/crates/*/out
    read_only 'the same, never proved' 2 "$work/nothing" "$cannot, and benchcheck is not" "$copy/check" -
    read_only 'run there, never proved' 2 "$work/nothing" "$cannot, and fields is not" "$copy/run" fields
fi

ended
