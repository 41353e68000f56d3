"""made.py: what the makers of test files share. Imported.

Words by their fields, packets and bench files (docs/RULES.md, "Words" and "Bench file"); the bytes that hex digits spell; and a program's files below
crates/, written or held to what was made.
"""
import os
import re
import struct
import sys

ROOT = os.path.dirname(os.path.dirname(os.path.dirname(os.path.abspath(__file__))))
IHW, DDW0, TDH, TDT, CDW = 0xE0, 0xE4, 0xE8, 0xF0, 0xF8
HEADER, PACKET = struct.Struct("<4I"), struct.Struct("<QIIHHBBH")


# --- words, as numbers of 80 bits. A field that is not named is one of a clean page in orbit 7 ---

def word(bits, ident):
    """Bits 71:0, and the id in byte 9."""
    return bits | ident << 72


def ihw(lanes=1, reserved=0):
    return word(lanes | reserved << 28, IHW)


def tdh(bc, kind=0x10, orbit=7, internal=0, no_data=0, continuation=0, reserved=0):
    return word(kind | internal << 12 | no_data << 13 | continuation << 14 | reserved << 15 | bc << 16 | orbit << 32, TDH)


def tdt(done=1, lane_status=0):
    return word(lane_status | done << 64, TDT)


def ddw0(lane_status=0, index=0):
    return word(lane_status | index << 68, DDW0)


def cdw(user=5, index=0):
    return word(user | index << 48, CDW)


def data(ident=0x20, bits=0):
    return word(bits, ident)


def ten(w):
    """A word's bytes."""
    return w.to_bytes(10, "little")


def tens(content):
    """The words of these bytes."""
    return [int.from_bytes(content[i:i + 10], "little") for i in range(0, len(content), 10)]


# --- bench files ---

def packet(words, position=0, orbit=7, trigger=0x10, bc=100, page=0, stop=0, format=2, count=None):
    """A packet of a file: its head, and its words. `count` is what the head says, where that is not the number of its words."""
    return PACKET.pack(position, orbit, trigger, bc, page, stop, format, len(words) if count is None else count), words


def file(*packets, packet_offset=16, word_offset=None, words=None):
    """A file of these packets. The last three are what its header says, where that is not as it should be."""
    body = b"".join(ten(w) for _, ws in packets for w in ws)
    offset = 16 + 24 * len(packets) if word_offset is None else word_offset
    header = HEADER.pack(len(packets), len(body) // 10 if words is None else words, packet_offset, offset)
    return header + b"".join(head for head, _ in packets) + body


def read(name):
    """A file of the repository."""
    with open(os.path.join(ROOT, name), "rb") as f:
        return f.read()


def from_hex(name):
    """The bytes that a file of hex digits spells, as tools/hex.sh has it: blanks don't matter, and '#' begins a comment."""
    return bytes.fromhex(re.sub(r"#.*", "", read(name).decode()))


# --- files below crates/: a maker hands them over by their names there, as edges/stdout, all those of a crate's data/ together ---

def strays(files):
    """What stands in data/ of these crates and is none of these files."""
    folders = sorted({crate + "/data" for crate in (name.split("/")[0] for name in files)})
    there = [folder + "/" + name for folder in folders if os.path.isdir(path(folder)) for name in sorted(os.listdir(path(folder)))]
    return [name for name in there if name not in files]


def others(files):
    """Those that are not as made, and strays."""
    return strays(files) + [name for name, content in files.items() if not os.path.exists(path(name)) or read("crates/" + name) != content]


def write(files):
    for name in strays(files):
        os.remove(path(name))
    for name, content in files.items():
        os.makedirs(os.path.dirname(path(name)), exist_ok=True)
        with open(path(name), "wb") as f:
            f.write(content)


def path(name):
    return os.path.join(ROOT, "crates", name)


def main(files):
    """A maker's command: writes the files, or with --check says which are not as made, and ends with 1 where there is one."""
    maker = os.path.basename(sys.argv[0])
    if sys.argv[1:] not in ([], ["--check"]):
        sys.exit("usage: %s [--check]" % maker)
    if not sys.argv[1:]:
        write(files)
        return
    wrong = others(files)
    for name in wrong:
        print("make: crates/%s is not what %s makes" % (name, maker))
    print("make: %s: %d files, %d not as made" % (maker, len(files), len(wrong)))
    sys.exit(1 if wrong else 0)
