#!/usr/bin/env python3
# two_files.py: the files data/first.bench and data/second.bench of crates/compare, and its stdout, what the program compare is to print of them.
# The second file is the first, two_pages of examples/, with the changes below. The lines were worked out by hand from document 02, ticket 5.
#
#     two_files.py            writes them
#     two_files.py --check    exit status 1 where one is not what this script makes
import sys

sys.dont_write_bytecode = True  # nothing is left in the repository
import made

FIRST = made.from_hex("examples/two_pages.hex")


# Of the 3 packets and 12 words the third packet with its word and the last word of the second are left out: 2 packets, 10 words.
def second():
    packets, words = bytearray(FIRST[16:64]), bytearray(FIRST[88:188])
    packets[0:8] = (2**62 - 1).to_bytes(8, "little")   # packet 0: position
    packets[8:12] = (2**32 - 1).to_bytes(4, "little")  # orbit
    packets[16:18] = (4095).to_bytes(2, "little")      # BC
    packets[20:22] = bytes([255, 2])                   # stop, format
    packets[36:40] = (0).to_bytes(4, "little")         # packet 1: trigger
    packets[42:44] = (65535).to_bytes(2, "little")     # page
    packets[46:48] = (6).to_bytes(2, "little")         # word count
    words[0] = 0xFE                                    # packet 0: word 0, byte 0
    words[39] = 0xF1                                   # word 3, byte 9
    words[40 + 15] = 1                                 # packet 1: word 1, byte 5
    words[40 + 59] = 0                                 # word 5, byte 9
    return made.HEADER.pack(2, 10, 16, 64) + packets + words


LINES = """packets 3 2
words 12 10
count 1 7 6
field 0 0 1000 4611686018427387903
field 0 1 100 4294967295
field 0 3 3465 4095
field 0 5 0 255
field 0 6 0 2
byte 0 0 0 255 254
byte 0 3 9 240 241
field 1 2 16 0
field 1 4 1 65535
byte 1 1 5 0 1
byte 1 5 9 232 0
differences 14
"""


if __name__ == "__main__":
    made.main({"compare/data/first.bench": FIRST, "compare/data/second.bench": second(), "compare/stdout": LINES.encode()})
