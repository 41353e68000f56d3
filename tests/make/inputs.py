#!/usr/bin/env python3
# inputs.py: the stdin of crates/benchcheck, of crates/benchwrite and of crates/fields, and their stdouts, what these programs are to print of it.
# Of benchcheck it is the whole case of document 01, from examples/, and of benchwrite the same as a text. Of fields it is the words below and three bytes
# behind them, each with its line, which was checked by hand against docs/RULES.md.
#
#     inputs.py            writes them
#     inputs.py --check    exit status 1 where one is not what this script makes
import sys

sys.dont_write_bytecode = True  # nothing is left in the repository
import made
from made import cdw, data, ddw0, ihw, tdh, tdt, word

FIELDS = [
    (ihw(1), "id 224 IHW active_lanes 1 lanes_on 1"),
    (tdh(3564, internal=1), "id 232 TDH trigger_type 16 internal_trigger 1 no_data 0 continuation 0 trigger_bc 3564 trigger_orbit 7"),
    (data(0x21), "id 33 data word lane 1"),
    (cdw(0x010203040506, 2), "id 248 CDW calibration_user_fields 1108152157446 calibration_word_index 2"),
    (data(0x53), "id 83 data word lane 17"),
    (data(0x47), "id 71 data word lane 78, no such lane, a guess"),
    (tdt(0, 0x0E), "id 240 TDT packet_done 0 worst_lane_status 3"),
    (word(0x1FF, 0x21), "id 33 IHW continuation active_lanes 511 lanes_on 9, by its place: its id is 0x21, not 0xE0"),
    (tdh(198, internal=1, continuation=1) ^ (0xE8 ^ 0xE0) << 72,
     "id 224 TDH continuation trigger_type 16 internal_trigger 1 no_data 0 continuation 1 trigger_bc 198 trigger_orbit 7"
     ", by its place: its id is 0xE0, not 0xE8"),
    (tdt(), "id 240 TDT packet_done 1 worst_lane_status 0"),
    (tdh(198, internal=1, no_data=1),
     "id 232 TDH after packet done trigger_type 16 internal_trigger 1 no_data 1 continuation 0 trigger_bc 198 trigger_orbit 7"),
    (tdt(0), "id 240 DDW0 index 0 worst_lane_status 0, a guess"),
    (tdh(198, orbit=8, internal=1), "id 232 IHW active_lanes 12980240 lanes_on 6, by its place: its id is 0xE8, not 0xE0"),
    (data(0x4B), "id 75 TDH trigger_type 0 internal_trigger 0 no_data 0 continuation 0 trigger_bc 0 trigger_orbit 0"
     ", by its place: its id is 0x4B, not 0xE8"),
    (tdt(), "id 240 TDT packet_done 1 worst_lane_status 0"),
    (ddw0(6, 3), "id 228 DDW0 index 3 worst_lane_status 2"),
]
LEFT_OVER = bytes.fromhex("FF0100"), "bytes left over at the end: 3"

if __name__ == "__main__":
    made.main({
        "benchcheck/stdin": made.from_hex("examples/whole_case.hex"),
        "benchcheck/stdout": made.read("examples/whole_case.out"),
        "benchwrite/stdin": made.read("examples/whole_case.stave"),
        "benchwrite/stdout": made.from_hex("examples/whole_case.hex"),
        "fields/stdin": b"".join(made.ten(w) for w, _ in FIELDS) + LEFT_OVER[0],
        "fields/stdout": "".join(line + "\n" for _, line in FIELDS + [LEFT_OVER]).encode(),
    })
