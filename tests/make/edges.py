#!/usr/bin/env python3
# edges.py: the files data/c00, c01 .. of crates/edges, and its stdout, what the program edges is to print.
# A case is a rule of document 01 or 02, the bytes of a file, and the lines that the document gives for it, worked out by hand: no program of ours made them.
# The lines of the last part, which no file can show, stand at the end.
#
#     edges.py            writes them
#     edges.py --check    exit status 1 where one is not what this script makes
import re
import sys

sys.dont_write_bytecode = True  # nothing is left in the repository
import made
from made import cdw, data, ddw0, file, ihw, packet, tdh, tdt

# The whole case of 01, to the letter, and the same words in other packets.
WHOLE_CASE = made.from_hex("examples/whole_case.hex")
FIVE = [ihw(), tdh(3564, internal=1), data(0x21), tdt(), tdh(198, internal=1, no_data=1)]


def whole(**packet_fields):
    return file(packet(FIVE, **dict({"bc": 3564}, **packet_fields)))


# n words that give no record in a packet with BC 100: an IHW, a TDH, data words of lane 0, a TDT with packet done.
def clean(n):
    return [ihw(), tdh(100)] + [data()] * (n - 3) + [tdt()]


# The same, but the last word is a data word of lane 1, which is not active: 1072, and nothing else.
def loud_at_the_end(n):
    return [ihw(), tdh(100)] + [data()] * (n - 3) + [data(0x21)]


def after_packet_done(*bcs, internal=0):
    return [tdh(bc, internal=internal, no_data=1) for bc in bcs]


FIVE_CLEAN = [packet(clean(n), position=100000 * i, page=i) for i, n in enumerate([998, 998, 997, 997, 997])]

CASES = []


def case(rule, content, *lines):
    CASES.append((rule, content, "".join(line + "\n" for line in lines)))


def packet_with(content, position):
    """The packet of a file that has a word at a position, counted from 1. There must be one alone."""
    found = []
    for i in range(made.HEADER.unpack_from(content)[0]):
        start, _, _, _, _, _, format, words = made.PACKET.unpack_from(content, 16 + 24 * i)
        stride = 16 if format == 0 else 10
        if position in range(start + 64, start + 64 + words * stride, stride):
            found.append(i + 1)
    assert len(found) == 1, "packets with a word at %d: %s" % (position, found)
    return found[0]


# 02, ticket 7: "the count of packets accepted since the start, beginning at 1 .. `benchcheck` prints the number as the first column".
def printed(rule, content, *records):
    """Records without their first column, which is the packet with a word at their position."""
    printed_in_full(rule, content, *("%d %s" % (packet_with(content, int(record.split()[0])), record) for record in records))


def printed_in_full(rule, content, *records):
    case(rule, content, "packet pos code first second", *records, "records %d" % len(records))


def refused(rule, content, n):
    case(rule, content, "refused %d" % n)


printed("the whole case", WHOLE_CASE, "84 1072 1 1", "104 440 3564 198", "104 1045 3564 198")
printed("a file of 16 bytes with no packets prints two lines", file())

# 6, in each of its forms.
refused("6: under 16 bytes: none", b"", 6)
refused("6: under 16 bytes: 15", file()[:15], 6)
refused("6: over 60,000 bytes, 60,010, all else as it should be", file(*FIVE_CLEAN, packet(clean(998), position=500000, page=5)), 6)
refused("6: over 60,000 bytes: 60,001", file(*FIVE_CLEAN, packet(clean(997), position=500000, page=5)) + b"\0", 6)
printed("60,000 bytes are not over 60,000: all words are read, the last too, word 997 of the packet at 500000",
        file(*FIVE_CLEAN, packet(loud_at_the_end(997), position=500000, page=5)), "510024 1072 1 1")
refused("6: packet offset not 16", file(packet(FIVE), packet_offset=40), 6)
refused("6: word offset not 16 + 24 times packets", file(packet(FIVE), word_offset=41), 6)
refused("6: length one word less", whole()[:-10], 6)
refused("6: length one byte more", whole() + b"\0", 6)
refused("6: word offset is a plain number: 24 times 0x0AAAAAAB is 2^32 + 8",
        made.HEADER.pack(0x0AAAAAAB, 0, 16, 24) + bytes(8), 6)
refused("6: length is a plain number: 10 times 0x1999999A is 2^32 + 4", made.HEADER.pack(0, 0x1999999A, 16, 16) + bytes(4), 6)

# 7, 5 and 3.
refused("7: packets' word counts don't sum to the header's: one less", file(packet(FIVE, count=4)), 7)
refused("7: one more", file(packet(FIVE, count=6)), 7)
refused("7: a word and no packet", file(word_offset=16, words=1) + made.ten(ihw()), 7)
refused("5: position at most 2^62", whole(position=2**62 + 1), 5)
printed("5: a position of 2^62 is in range", whole(position=2**62),
        "4611686018427387988 1072 1 1", "4611686018427388008 440 3564 198", "4611686018427388008 1045 3564 198")
refused("5: BC at most 4095", whole(bc=4096), 5)
printed("5: a BC of 4095 is in range; 445: TDH 3564, packet 4095", whole(bc=4095),
        "74 445 3564 4095", "84 1072 1 1", "104 440 3564 198", "104 1045 3564 198")
refused("5: format 0 or 2, not 1", whole(format=1), 5)
refused("5: format 0 or 2, not 3", whole(format=3), 5)
printed("format 0: a word each 16 bytes", whole(format=0), "96 1072 1 1", "128 440 3564 198", "128 1045 3564 198")
refused("3: in a file, a packet's count above 4,096", file(packet(clean(4097))), 3)
printed("4,096th word accepted: it stands at 64 + 4095 times 10", file(packet(loud_at_the_end(4096))), "41014 1072 1 1")

# "File: 6, 7, then per packet 5, 3."
refused("6 before 7", file(packet(FIVE, count=4), word_offset=41), 6)
refused("6 before 5", file(packet(FIVE, format=1), packet_offset=40), 6)
refused("6 before 3", file(packet([], count=4097), packet_offset=40), 6)
refused("7 before 5", file(packet(FIVE, format=1, count=4)), 7)
refused("7 before 3", file(packet([], count=4097)), 7)
refused("5 before 3 in a packet", file(packet(clean(4097), format=1)), 5)
refused("packet by packet: 3 of the first before 5 of the second", file(packet(clean(4097)), packet(FIVE, format=1)), 3)
refused("packet by packet: 5 of the first before 3 of the second", file(packet(FIVE, format=1), packet(clean(4097))), 5)
refused("the last packet is looked at too", file(packet(FIVE), packet([]), packet([], bc=4096)), 5)

# Packets and words in order.
printed("packets with no words", file(packet([]), packet([], format=0)))
printed("each packet before its words: those of 0, 2, 0 and 1 words; 30, 2 reserved",
        file(packet([], position=1000, stop=9), packet([ihw(), tdh(100, no_data=1)], position=2000), packet([], position=3000, stop=9),
             packet([ihw(reserved=1)], position=4000, page=1)),
        "4064 30 2 0")
printed("one word gives at most six: 40, 42, 444, 445, 44 and 45 of one TDH; its IHW in the three-way state stands on page 0",
        file(packet([ihw(), tdh(100, internal=1, no_data=1)]),
             packet([ihw(), tdh(300, kind=0x11, internal=1, continuation=1, orbit=9, reserved=1)], position=1000, orbit=8, bc=200)),
        "1064 1122 0 0", "1074 40 2 0", "1074 42 1 0", "1074 444 9 8", "1074 445 300 200", "1074 44 17 16", "1074 45 200 198")

# "At the edges" and "Easy to get wrong".
printed("equal BCs give no 440, a larger previous BC does", file(packet([ihw()] + after_packet_done(100, 100, 99, 99))), "94 440 100 99")
printed("a second CDW in a packet gets 70, the first does not", file(packet([ihw(), tdh(100), cdw(), cdw(), data(), tdt()])), "94 70 248 0")
printed("a second CDW in the next packet gets no 70; 81: user fields differ and index is not 0",
        file(packet([ihw(), tdh(100), cdw(user=5), tdt()]), packet([ihw(), tdh(100), cdw(user=6, index=3), tdt()], position=1000, page=1)),
        "1084 81 3 0")
printed("no frame is opened at 59: the next TDT finds none either",
        file(packet([ihw(), tdh(100, continuation=1), tdt(), tdh(100, continuation=1), tdt()])), "74 42 1 0", "84 59 0 0", "104 59 0 0")
printed("a TDH does not meet itself: the first gives no 45; 298 to 500 is 202",
        file(packet([ihw()] + after_packet_done(100, 298, 500, internal=1))), "94 45 202 198")
printed("3366 to 3564, and 3564 to 198, give 1045, no period", file(packet([ihw()] + after_packet_done(3366, 3564, 198, internal=1), bc=3366)),
        "84 1045 3366 3564", "94 440 3564 198", "94 1045 3564 198")
printed("periods: 3563 to 0 is 1; 5 to 5 is 0; 3465 to 99 is 198; 0 to 3563 is 3563",
        file(packet([ihw()] + after_packet_done(3563, 0, 5, 5, 3465, 99, 0, 3563, internal=1), bc=3563)),
        "84 440 3563 0", "84 45 1 198", "94 45 5 198", "104 45 0 198", "114 45 3460 198", "124 440 3465 99", "134 440 99 0",
        "134 45 3465 198", "144 45 3563 198")
printed("lane 78 is not lane 14: id 0x47 is no data id, there is no such lane, its input is 7",
        file(packet([ihw(lanes=2**28 - 1), tdh(100), data(0x47), tdt()])), "84 991 71 0", "84 70 71 0", "84 1074 78 268435455", "84 1073 7 0")
printed("992 after a TDH with no data too: an unknown id is a DDW0; stop is not 1, page is 0",
        file(packet([ihw(), tdh(100, no_data=1), data(0x20)])), "84 992 32 0", "84 60 1 0", "84 1110 0 0", "84 1111 0 0")

# The page at an IHW: 02, ticket 3. "1121 in the start state for a page not 0, and 1122 in the three-way state for a page of 0 (first 0). Stop stays 0 in
# both." Both come after 1120. A continuation is not asked.
TO_THREE = [ihw(), tdh(100, no_data=1)]
printed("1121 in the start state for a page not 0", file(packet([ihw()], page=1)), "64 1121 1 0")
printed("stop stays 0 in the start state: 1120 on page 0", file(packet([ihw()], stop=1)), "64 1120 1 0")
printed("1121 comes after 1120, and its first is the page: the largest", file(packet([ihw()], page=65535, stop=255)), "64 1120 255 0", "64 1121 65535 0")
printed("1122 in the three-way state for a page of 0, after a TDT with packet done and after a TDH with no data",
        file(packet([ihw(), tdh(100), tdt()] + TO_THREE + [ihw()])), "94 1122 0 0", "114 1122 0 0")
printed("stop stays 0 in the three-way state: 1120, before 1122 on page 0, and alone on a later page",
        file(packet(TO_THREE), packet(TO_THREE, position=1000, stop=1), packet(TO_THREE, position=2000, page=1, stop=1)),
        "1064 1120 1 0", "1064 1122 0 0", "2064 1120 1 0")
printed("no record in the three-way state on a later page: 1, 65535, and 1 again",
        file(packet(TO_THREE), packet(TO_THREE, position=1000, page=1), packet(TO_THREE, position=2000, page=65535), packet(TO_THREE, position=3000, page=1)))
printed("after a DDW0 the start state again: page 0 gives none, page 2 gives 1121",
        file(packet(TO_THREE), packet([ddw0()], position=1000, page=1, stop=1), packet(TO_THREE, position=2000),
             packet([ddw0()], position=3000, page=1, stop=1), packet([ihw()], position=4000, page=2)), "4064 1121 2 0")
printed("after an unknown id, which is a DDW0 too: 1121 on page 2",
        file(packet(TO_THREE), packet([data(0x20)], position=1000, page=1, stop=1), packet([ihw()], position=2000, page=2)),
        "1064 992 32 0", "1064 60 1 0", "2064 1121 2 0")
printed("a continuation is asked for neither page nor stop",
        file(packet([ihw(), tdh(100), tdt(0)]), packet([ihw(), tdh(100, continuation=1), tdt(0)], position=1000),
             packet([ihw(), tdh(100, continuation=1), tdt()], position=2000, page=7, stop=1)))


# A lane that can't be: 02, ticket 4. "active, not active, no such lane (above 27 for outer words, above 8 for inner). Its callers give 1074 (lane, active) in
# place of 1071 or 1072 in the third case, so an inner id of 0x29 with its bit set, silent on this point today, gets a 1074 too."
def on_lanes(*pages):
    """A page for each: an IHW with these lanes, a TDH, and a word with each of these ids, the first of them at 84, in packets 1,000 apart."""
    return file(*(packet([ihw(lanes), tdh(100)] + [data(i) for i in ids] + [tdt()], position=1000 * n, page=n) for n, (lanes, ids) in enumerate(pages)))


def no_lane(position, ident, lane, lanes, outer=False):
    """The records of a word with such an id."""
    return ["%d 991 %d 0" % (position, ident), "%d 70 %d 0" % (position, ident), "%d 1074 %d %d" % (position, lane, lanes)] + ["%d 1073 7 0" % position] * outer


printed("0x28 is lane 8, the last inner one: active with bit 8, not active without it, whatever bit 9 is",
        on_lanes((0x100, [0x28]), (0x200, [0x28]), (0x300, [0x28]), (0, [0x28])), "1084 1072 8 512", "3084 1072 8 0")
printed("0x29 is no data id, and there is no inner lane 9: with bit 9 or without it, and whatever bit 8 is",
        on_lanes((0x200, [0x29]), (0x100, [0x29]), (0x300, [0x29]), (0, [0x29])),
        *no_lane(84, 41, 9, 512), *no_lane(1084, 41, 9, 256), *no_lane(2084, 41, 9, 768), *no_lane(3084, 41, 9, 0))
printed("0x29 to 0x3F with all lanes active: inner lanes 9 to 31, none of which there is",
        on_lanes((2**28 - 1, range(0x29, 0x40))),
        *[r for n in range(23) for r in no_lane(84 + 10 * n, 41 + n, 9 + n, 268435455)])
printed("0x20 to 0x28 with all lanes active but the first eight: 1072 for lanes 0 to 7, none for lane 8",
        on_lanes((0xFFFFF00, range(0x20, 0x29))), *["%d 1072 %d 268435200" % (84 + 10 * n, n) for n in range(8)])
printed("0x47, 0x4F, 0x57, 0x5F: outer lanes 78, 93, 108 and 28, with all lanes active and with none; 1073 still follows",
        on_lanes((2**28 - 1, [0x47, 0x4F, 0x57, 0x5F]), (0, [0x47, 0x4F, 0x57, 0x5F])),
        *[r for page, lanes in ((0, 268435455), (1000, 0))
          for n, (ident, lane) in enumerate([(71, 78), (79, 93), (87, 108), (95, 28)]) for r in no_lane(page + 84 + 10 * n, ident, lane, lanes, outer=True)])
printed("0x46, 0x4E, 0x56, 0x5E: outer lanes 6, 13, 20 and 27; with their bits none, without them 1071",
        on_lanes((0x8102040, [0x46, 0x4E, 0x56, 0x5E]), (0x7EFDFBF, [0x46, 0x4E, 0x56, 0x5E])),
        "1084 1071 6 133160895", "1094 1071 13 133160895", "1104 1071 20 133160895", "1114 1071 27 133160895")
printed("a lane that can't be leaves what comes after it as it was: the lane of the next data word, and the run that goes on",
        on_lanes((1, [0x20, 0x29, 0x20, 0x21, 0x5F, 0x20]), (1, [0x20])),
        *no_lane(94, 41, 9, 1), "114 1072 1 1", *no_lane(124, 95, 28, 1, outer=True))


# Fifty orbits with a trigger each 198 crossings, each trigger on a page of its own, and a page with a DDW0 behind the eighteenth.
def fifty_orbits():
    for orbit in range(50):
        for page in range(18):
            at = {"position": 1000 * (19 * orbit + page), "orbit": orbit}
            yield packet([ihw(), tdh(198 * page, internal=1, orbit=orbit), data(), tdt()], bc=198 * page, page=page, **at)
        yield packet([ddw0()], position=1000 * (19 * orbit + 18), orbit=orbit, page=18, stop=1)


printed("a long clean run of many pages gives no record at all", file(*fifty_orbits()))

# The example of docs/CODES.md. From the first data word on each word has a byte of the next one as its id, and that byte is 0.
PAGE = b"".join(map(made.ten, clean(93)))
ONE_BYTE_LOST = PAGE[:20] + PAGE[21:] + b"\0"
printed("one byte lost in the first data word of a page of 93 words: 991 and 70 for each of the 91 words from there on",
        file(packet(made.tens(ONE_BYTE_LOST))),
        *["%d %d 0 0" % (64 + 10 * n, code) for n in range(2, 93) for code in (991, 70)])

# The packet of a record: 02, ticket 7. "When two packets come from the same file position after a restart, a record can't be placed." Of these records the
# first column is written down. In the third case the source is restarted in the middle of a trigger: its packets come again from position 0, and the tracker
# goes on in the data section, where an IHW and a TDH, 224 and 232, are unknown; the TDT closes the frame of packet 1, and packet 3 is in step.
printed_in_full("two packets of one position, told apart by the first column",
                file(packet([ihw(reserved=1), tdh(100, no_data=1)], position=1000), packet([ihw(reserved=1), tdh(100, no_data=1)], position=1000, page=1)),
                "1 1064 30 2 0", "2 1064 30 2 0")
printed_in_full("the same packet three times: lane 1 is not active; in the second and third the IHW comes in the three-way state on page 0",
                file(*[packet([ihw(), tdh(100), data(0x21), tdt()])] * 3),
                "1 84 1072 1 1", "2 64 1122 0 0", "2 84 1072 1 1", "3 64 1122 0 0", "3 84 1072 1 1")
printed_in_full("a restart in the middle of a trigger: positions come again, the count goes on",
                file(packet([ihw(), tdh(100), data(), data(0x21)]),
                     packet([ihw(), tdh(100), data(), data(0x21), tdt()]), packet([ihw(), tdh(100), data(0x21), tdt()], position=1000, page=1)),
                "1 94 1072 1 1",
                "2 64 991 224 0", "2 64 70 224 0", "2 74 991 232 0", "2 74 70 232 0", "2 94 1072 1 1",
                "3 1084 1072 1 1")
printed_in_full("packets without words count: the most that stand in a file with a word, 2,498, the last with one",
                file(*[packet([])] * 2497, packet([ihw(reserved=1)])), "2498 64 30 2 0")
printed("2,499 packets are the most that a file has: none of them is refused", file(*[packet([])] * 2499))

# What no file can show: 4,097 words in one packet; a word refused with 4 is not counted, so that it stands at 64 when it is given again: four numbers are no
# room for its record, and five are, the last of which is the packet; with a set period of 3564 each of the found periods 0, 1 .. 3563 differs, and their sum
# is 3563 times 3564 / 2.
# An IHW on page 0 and on page 1: in the start state, in the three-way state, and there after a reset, which leads to the start state.
# Ids with running checks off and on, behind an IHW with lanes 8 and 9: the codes that each gives.
# The packet that a record says: of the first packet, after one that is refused with 5, of the second, after a reset, of the third.
CALLS = ("words 4096 refused 3\nrefused 4 then 64 30 2 0 1\ndiffer 3564 sum 6349266\n"
         "page 0 start 0 three 1122 reset 0\npage 1 start 1121 three 0 reset 1121\n"
         "id 33 off on 1072\nid 40 off on\nid 41 off 991 70 on 991 70 1074\nid 71 off 991 70 on 991 70 1074 1073\n"
         "packet 1 refused 5 still 1 next 2 reset 2 next 3\n")

# 02, ticket 9, by a rule and a set period two internal TDHs, each with its orbit and its crossing: the records of the second. Its crossing being smaller
# than that of the first gives 440, whatever the orbits. 10,692 is three orbits; 2,147,483,647 orbits are 7,653,631,717,908 crossings; 4,294,967,295
# crossings are 1,205,097 orbits and 1,587 crossings.
CALLS += """\
rule 1 set 0 from 5 7 to 8 7:
rule 1 set 10692 from 5 7 to 8 7: 45 0 10692
rule 2 set 10692 from 5 7 to 8 7:
rule 2 set 0 from 5 7 to 8 7: 45 10692 0
rule 1 set 3564 from 4294967295 0 to 0 0: 45 0 3564
rule 2 set 3564 from 4294967295 0 to 0 0:
rule 2 set 1 from 4294967295 3563 to 0 0: 440 3563 0
rule 1 set 3563 from 7 5 to 7 4: 440 5 4
rule 2 set 3563 from 7 5 to 7 4: 440 5 4 1046 5 4
rule 2 set 0 from 7 5 to 7 5:
rule 2 set 3564 from 7 5 to 7 5: 45 0 3564
rule 2 set 1 from 7 5 to 7 6:
rule 2 set 198 from 0 0 to 1 198: 45 3762 198
rule 2 set 3366 from 0 198 to 1 0: 440 198 0
rule 2 set 0 from 0 0 to 2147483647 0: 45 7653631717908 0
rule 2 set 0 from 0 0 to 2147483648 0: 1046 0 0
rule 2 set 0 from 0 3563 to 2147483648 0: 440 3563 0 1046 3563 0
rule 2 set 4294967295 from 1 0 to 0 0: 1046 0 0
rule 2 set 0 from 1 0 to 0 3563: 1046 0 3563
rule 2 set 4294967295 from 0 0 to 1205097 1587:
rule 2 set 4294967295 from 0 0 to 1205097 1588: 45 4294967296 4294967295
rule 1 set 4294967295 from 0 0 to 1205097 1587: 45 1587 4294967295
rule 2 set 198 from 0 3366 to 0 3564: 1045 3366 3564
rule 2 set 198 from 0 3564 to 1 198: 440 3564 198 1045 3564 198
rule 2 set 0 from 7 4095 to 7 4095: 1045 4095 4095
rule 2 set 0 from 7 4095 to 7 0: 440 4095 0 1045 4095 0
rule 2 set 0 from 8 0 to 7 3564: 1045 0 3564
"""
assert 2147483647 * 3564 == 7653631717908 and 1205097 * 3564 + 1587 == 4294967295


def main():
    named = re.search(r"const NAMES: \[&str; \d+\] = \[(.*?)\];", made.read("crates/edges/src/main.rt").decode(), re.S).group(1)
    told = re.findall(r'"(\w+)"', named)
    assert told == ["c%02d" % i for i in range(len(CASES))], "crates/edges/src/main.rt opens %d files, and there are %d cases" % (len(told), len(CASES))
    files = {"edges/data/c%02d" % i: content for i, (_, content, _) in enumerate(CASES)}
    files["edges/stdout"] = ("".join("c%02d\n%s" % (i, lines) for i, (_, _, lines) in enumerate(CASES)) + CALLS).encode()
    made.main(files)


assert whole() == WHOLE_CASE
if __name__ == "__main__":
    main()
