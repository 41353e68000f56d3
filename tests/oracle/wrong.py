#!/usr/bin/env python3
"""wrong.py: wrong versions of plain.c, each of which the short comparison must notice. It tests the comparison, not the library.

    wrong.py [--seed N] [--every K] [--build DIR]        --every: a sample, each K-th of them

Each entry is a name, a text that stands once in plain.c, and what to put in its place.
"""
import argparse
import os
import subprocess
import sys
import tempfile

sys.dont_write_bytecode = True  # nothing is left in the repository
import compare
import smallest

WRONG = [
    # the tracker
    ('never_moves', 't[STATE] = kind == KHZ_IHW ? TDH_ : C_TDH_;', ''),
    ('no_data_is_not_looked_at', 't[STATE] = no_data && kind', 't[STATE] = 0 && kind'),
    ('bit_13_read_in_c_tdh', 'no_data && kind != KHZ_TDH_CONTINUATION ? THREE', 'no_data ? THREE'),
    ('tdt_not_done_ends_the_packet', 't[STATE] = done ? THREE : C_IHW_;', 't[STATE] = THREE;'),
    ('packet_done_is_bit_65', 'bool done = w.high & 1;', 'bool done = w.high & 2;'),
    ('unknown_in_three_stays', '    t[STATE] = IHW_;\n    a->kind = KHZ_DDW0;', '    t[STATE] = w.id == ID_DDW0 ? IHW_ : THREE;\n    a->kind = KHZ_DDW0;'),
    ('ihw_in_three_is_a_ddw0', ': w.id == ID_IHW ? take_ihw(t, w, KHZ_IHW, &r, b, a)', ': w.id == 0 ? take_ihw(t, w, KHZ_IHW, &r, b, a)'),
    ('guess_is_not_told', 'a->guessed = !known && !cdw;', ''),
    ('guess_in_three_is_not_told', '    a->guessed = w.id != ID_DDW0;\n', ''),
    ('second_cdw_is_a_data_word', 'a->kind = cdw ?', 'a->kind = first_cdw ?'),
    ('reset_does_nothing', '    t[STATE] = IHW_;\n    return KHZ_DONE;\n}\n', '    return KHZ_DONE;\n}\n', -1),
    ('reset_forgets_the_internal_tdh', '    t[STATE] = IHW_;\n    return KHZ_DONE;\n}\n', '    t[STATE] = IHW_;\n    t[INTERNAL] = NONE;\n    return KHZ_DONE;\n}\n', -1),
    ('reset_forgets_the_frame', '    t[STATE] = IHW_;\n    return KHZ_DONE;\n}\n', '    t[STATE] = IHW_;\n    t[FRAME] = NONE;\n    return KHZ_DONE;\n}\n', -1),
    ('packet_does_not_clear_seen', '    t[SEEN] = 0;\n', ''),
    ('packet_does_not_clear_count', '    t[COUNT] = 0;\n', ''),
    ('format_0_has_10', '? 16 : 10', '? 10 : 10'),
    ('positions_from_the_first_byte', 't[POSITION] + 64 +', 't[POSITION] +'),
    ('state_1_after_e4_e0', 'ID_DDW0 = 0xE4', 'ID_DDW0 = 0xE5'),
    # the packet in a record: the Rust has none, and khz_driver counts them
    ('packets_from_0', 'x[4] = r->packet;', 'x[4] = r->packet - 1;'),
    ('packets_not_counted', '    t[PACKETS]++;\n', ''),
    ('every_packet_is_the_first', 't[PACKETS]++;', 't[PACKETS] = 1;'),
    ('packets_counted_where_the_position_is_another', 't[PACKETS]++;', 't[PACKETS] += t[PACKETS] == 0 || position != t[POSITION];'),
    ('packets_of_16_bits', 't[PACKETS]++;', 't[PACKETS] = (t[PACKETS] + 1) & 0xFFFF;'),
    ('words_counted_as_packets', 'r.packet = t[PACKETS];', 'r.packet = t[PACKETS] + t[COUNT];'),
    ('page_for_the_packet', 'r.packet = t[PACKETS];', 'r.packet = t[PAGE];'),
    ('packet_not_written', '    x[4] = r->packet;\n', ''),
    ('packet_first_in_the_buffer', 'x[0] = r->position;\n    x[1] = code;\n    x[2] = first;\n    x[3] = second;\n    x[4] = r->packet;',
     'x[0] = r->packet;\n    x[1] = r->position;\n    x[2] = code;\n    x[3] = first;\n    x[4] = second;'),
    ('packet_before_second', 'x[3] = second;\n    x[4] = r->packet;', 'x[3] = r->packet;\n    x[4] = second;'),
    ('start_keeps_the_count', '    memset(t, 0, KHZ_TRACKER_WORDS * sizeof *t);\n',
     '    uint64_t kept = t[PACKETS];\n    memset(t, 0, KHZ_TRACKER_WORDS * sizeof *t);\n    t[PACKETS] = kept;\n'),
    ('reset_counts_anew', '    t[STATE] = IHW_;\n    return KHZ_DONE;\n}\n', '    t[STATE] = IHW_;\n    t[PACKETS] = 0;\n    return KHZ_DONE;\n}\n', -1),
    ('reset_counts', '    t[STATE] = IHW_;\n    return KHZ_DONE;\n}\n', '    t[STATE] = IHW_;\n    t[PACKETS]++;\n    return KHZ_DONE;\n}\n', -1),
    ('refused_packet_counts', '        return KHZ_PACKET_FIELD;', '        return t[PACKETS]++, KHZ_PACKET_FIELD;'),
    ('10_never', 'if (t[PACKETS] == KHZ_PACKETS_MAX)', 'if (0)'),
    ('10_one_early', 't[PACKETS] == KHZ_PACKETS_MAX)', 't[PACKETS] == KHZ_PACKETS_MAX - 1)'),
    ('10_one_late', 't[PACKETS] == KHZ_PACKETS_MAX)', 't[PACKETS] == KHZ_PACKETS_MAX + 1)'),
    ('10_is_5', 'return KHZ_LAST_PACKET;', 'return KHZ_PACKET_FIELD;'),
    ('10_before_5', '    if (position > KHZ_POSITION_MAX ||',
     '    if (t[PACKETS] == KHZ_PACKETS_MAX)\n        return KHZ_LAST_PACKET;\n    if (position > KHZ_POSITION_MAX ||'),
    ('10_before_100', 'uint64_t format)\n{\n', 'uint64_t format)\n{\n    if (t[PACKETS] == KHZ_PACKETS_MAX)\n        return KHZ_LAST_PACKET;\n'),
    ('10_begins_the_packet', '        return KHZ_LAST_PACKET;', '        return t[COUNT] = t[SEEN] = 0, KHZ_LAST_PACKET;'),
    ('10_keeps_a_field', '        return KHZ_LAST_PACKET;', '        return t[POSITION] = position, KHZ_LAST_PACKET;'),
    ('count_stays_at_the_last', '    if (t[PACKETS] == KHZ_PACKETS_MAX)\n        return KHZ_LAST_PACKET;\n    t[PACKETS]++;',
     '    t[PACKETS] += t[PACKETS] < KHZ_PACKETS_MAX;'),
    ('count_turns_over', '    if (t[PACKETS] == KHZ_PACKETS_MAX)\n        return KHZ_LAST_PACKET;\n    t[PACKETS]++;',
     '    t[PACKETS] = (t[PACKETS] + 1) & KHZ_PACKETS_MAX;'),
    # IHW
    ('ihw_id_not_checked', 'if (w.id != ID_IHW)', 'if (0)'),
    ('ihw_reserved_28_forgotten', 'w.low >> 28 | w.high', 'w.low >> 29 | w.high'),
    ('ihw_reserved_71_64_forgotten', 'w.low >> 28 | w.high', 'w.low >> 28'),
    ('ihw_wrong_id_also_reserved', 'else if (w.low >> 28', 'if (w.low >> 28'),
    ('ihw_wrong_id_not_stored', 't[LANES] = w.low & 0xFFFFFFF;', 'if (w.id == ID_IHW) t[LANES] = w.low & 0xFFFFFFF;'),
    ('lanes_of_27_bits', 't[LANES] = w.low & 0xFFFFFFF;', 't[LANES] = w.low & 0x7FFFFFF;'),
    ('continuation_ihw_checks_the_page', 'if (t[RUNNING] && kind == KHZ_IHW)', 'if (t[RUNNING])'),
    ('ihw_page_without_running', 'if (t[RUNNING] && kind == KHZ_IHW)', 'if (kind == KHZ_IHW)'),
    ('stop_is_one_bit_at_ihw', 'if (t[STOP] != 0)', 'if (t[STOP] & 1)'),
    ('page_1_in_the_start_state', 't[STATE] == IHW_ && t[PAGE] != 0', 't[STATE] == IHW_ && t[PAGE] > 1'),
    ('page_0_asked_in_three_too', 't[STATE] == IHW_ && t[PAGE] != 0', 't[PAGE] != 0'),
    ('1121_forgotten', 'say(r, 1121, t[PAGE], 0)', '(void)0'),
    ('1121_has_the_stop', 'say(r, 1121, t[PAGE], 0)', 'say(r, 1121, t[STOP], 0)'),
    ('1121_before_1120', 'if (t[STOP] != 0)\n            say(r, 1120, t[STOP], 0);\n        if (t[STATE] == IHW_ && t[PAGE] != 0)\n            say(r, 1121, t[PAGE], 0);',
     'if (t[STATE] == IHW_ && t[PAGE] != 0)\n            say(r, 1121, t[PAGE], 0);\n        if (t[STOP] != 0)\n            say(r, 1120, t[STOP], 0);'),
    ('1122_at_page_1', 't[STATE] == THREE && t[PAGE] == 0', 't[STATE] == THREE && t[PAGE] <= 1'),
    ('1122_in_the_start_state', 't[STATE] == THREE && t[PAGE] == 0', 't[PAGE] == 0'),
    ('1122_forgotten', 'say(r, 1122, t[PAGE], 0)', '(void)0'),
    ('1122_is_1121', 'say(r, 1122, t[PAGE], 0)', 'say(r, 1121, t[PAGE], 0)'),
    ('lanes_not_counted', 'a->lanes = ones(t[LANES]);', 'a->lanes = 0;'),
    ('lanes_counted_to_26', 'i < 28; i++', 'i < 27; i++'),
    # TDH
    ('tdh_id_also_reserved', '    if (w.id != ID_TDH) {\n        say(r, 40, 1, 0);\n    } else {', '    if (w.id != ID_TDH)\n        say(r, 40, 1, 0);\n    {'),
    ('reserved_bit_15_forgotten', '0xF0008000', '0xF0000000'),
    ('reserved_bits_31_28_forgotten', '0xF0008000', '0x70008000'),
    ('tdh_reserved_71_64_forgotten', '(w.low & 0xF0008000) | w.high', '(w.low & 0xF0008000)'),
    ('type_0_alone_is_wrong', 'type == 0 && !internal ? 4', 'type == 0 ? 4'),
    ('both_0_is_5', '&& !internal ? 4', '&& !internal ? 5'),
    ('bc_shifted_by_15', 'bc = w.low >> 16 & 0xFFF, orbit', 'bc = w.low >> 15 & 0xFFF, orbit'),
    ('bc_of_eleven_bits', 'bc = w.low >> 16 & 0xFFF, orbit', 'bc = w.low >> 16 & 0x7FF, orbit'),
    ('type_of_eleven_bits', 'uint64_t type = w.low & 0xFFF', 'uint64_t type = w.low & 0x7FF'),
    ('not_increasing_at_equal', 'if (previous_bc > bc)', 'if (previous_bc >= bc)'),
    ('440_swapped', 'say(r, 440, previous_bc, bc)', 'say(r, 440, bc, previous_bc)'),
    ('42_forgotten', 'say(r, 42, 1, 0)', '(void)0'),
    ('444_swapped', 'say(r, 444, orbit, t[ORBIT])', 'say(r, 444, t[ORBIT], orbit)'),
    ('page_not_asked_at_tdh', 'if (t[PAGE] == 0 && (internal', 'if ((internal'),
    ('trigger_bit_5', 't[TRIGGER] >> 4 & 1', 't[TRIGGER] >> 5 & 1'),
    ('internal_not_asked', '(internal || (t[TRIGGER] >> 4 & 1))', '(t[TRIGGER] >> 4 & 1)'),
    ('445_swapped', 'say(r, 445, bc, t[BC])', 'say(r, 445, t[BC], bc)'),
    ('445_after_44', '                if (bc != t[BC])\n                    say(r, 445, bc, t[BC]);\n                if (type != (t[TRIGGER] & 0xFFF))\n                    say(r, 44, type, t[TRIGGER] & 0xFFF);\n',
     '                if (type != (t[TRIGGER] & 0xFFF))\n                    say(r, 44, type, t[TRIGGER] & 0xFFF);\n                if (bc != t[BC])\n                    say(r, 445, bc, t[BC]);\n'),
    ('44_all_32_bits', 'say(r, 44, type, t[TRIGGER] & 0xFFF)', 'say(r, 44, type, t[TRIGGER])'),
    ('41_forgotten', 'say(r, 41, 0, 0)', '(void)0'),
    ('41_first_1', 'say(r, 41, 0, 0)', 'say(r, 41, 1, 0)'),
    ('441_swapped', 'say(r, 441, bc, previous_bc)', 'say(r, 441, previous_bc, bc)'),
    ('442_forgotten', 'say(r, 442, orbit, previous >> 32)', '(void)0'),
    ('443_swapped', 'say(r, 443, type, previous_type)', 'say(r, 443, previous_type, type)'),
    ('443_before_441', '            if (bc != previous_bc)\n                say(r, 441', '            if (type != previous_type)\n                say(r, 443, type, previous_type);\n            if (bc != previous_bc)\n                say(r, 441'),
    ('interval_at_continuation', 'if (internal && kind != KHZ_TDH_CONTINUATION)', 'if (internal)'),
    ('interval_without_internal', 'if (internal && kind != KHZ_TDH_CONTINUATION)', 'if (kind != KHZ_TDH_CONTINUATION)'),
    ('interval_without_running', '    if (!put(r, b))\n        return false;\n    t[TDH] = w.low;', '    if (!t[RUNNING] && internal && kind != KHZ_TDH_CONTINUATION)\n        interval(t, bc, orbit, r);\n    if (!put(r, b))\n        return false;\n    t[TDH] = w.low;'),
    ('tdh_meets_itself', '    uint64_t previous = t[INTERNAL] & 0xFFF, orbits', '    uint64_t previous = bc, orbits'),
    ('only_internal_tdh_is_previous', '    t[TDH] = w.low;', '    if (internal)\n        t[TDH] = w.low;'),
    ('last_tdh_for_last_internal', '    if (internal)\n        t[INTERNAL] = orbit << 12 | bc;', '    t[INTERNAL] = orbit << 12 | bc;'),
    ('continuation_not_stored', '    t[TDH] = w.low;', '    if (kind != KHZ_TDH_CONTINUATION)\n        t[TDH] = w.low;'),
    ('continuation_not_internal', '    if (internal)\n        t[INTERNAL] = orbit << 12 | bc;', '    if (internal && kind != KHZ_TDH_CONTINUATION)\n        t[INTERNAL] = orbit << 12 | bc;'),
    ('wrong_id_not_internal', '    if (internal)\n        t[INTERNAL] = orbit << 12 | bc;', '    if (internal && w.id == ID_TDH)\n        t[INTERNAL] = orbit << 12 | bc;'),
    ('last_bc_3564', 'LAST_BC = KHZ_LAST_CROSSING,', 'LAST_BC = KHZ_LAST_CROSSING + 1,'),
    ('orbit_of_3563', 'ORBIT_LENGTH = LAST_BC + 1', 'ORBIT_LENGTH = 3563'),
    ('previous_above_3563_not_asked', 'if (previous > LAST_BC || bc > LAST_BC)', 'if (bc > LAST_BC)'),
    ('current_above_3563_not_asked', 'if (previous > LAST_BC || bc > LAST_BC)', 'if (previous > LAST_BC)'),
    ('1045_swapped', 'say(r, 1045, previous, bc)', 'say(r, 1045, bc, previous)'),
    ('45_swapped', 'say(r, 45, found, t[PERIOD])', 'say(r, 45, t[PERIOD], found)'),
    ('period_0_is_absent', 't[PERIOD] = periodic ? period', 't[PERIOD] = periodic && period ? period'),
    ('period_of_12_bits', 't[PERIOD] = periodic ? period', 't[PERIOD] = periodic ? period & 0xFFF'),
    ('period_of_16_bits', 't[PERIOD] = periodic ? period', 't[PERIOD] = periodic ? period & 0xFFFF'),
    # the two rules of a period
    ('rule_2_is_rule_1', 't[RULE] = rule', 't[RULE] = KHZ_RULE_1'),
    ('rule_1_is_rule_2', 't[RULE] = rule', 't[RULE] = KHZ_RULE_2'),
    ('orbits_backwards', '(orbit - (t[INTERNAL] >> 12)) & 0xFFFFFFFF', '((t[INTERNAL] >> 12) - orbit) & 0xFFFFFFFF'),
    ('orbits_not_over_the_turn', '(orbit - (t[INTERNAL] >> 12)) & 0xFFFFFFFF', 'orbit - (t[INTERNAL] >> 12)'),
    ('orbits_of_16_bits', '(orbit - (t[INTERNAL] >> 12)) & 0xFFFFFFFF', '(orbit - (t[INTERNAL] >> 12)) & 0xFFFF'),
    ('orbit_of_the_packet', '(orbit - (t[INTERNAL] >> 12)) & 0xFFFFFFFF', '(t[ORBIT] - (t[INTERNAL] >> 12)) & 0xFFFFFFFF'),
    ('orbit_of_the_last_tdh', '(orbit - (t[INTERNAL] >> 12)) & 0xFFFFFFFF', '(orbit - (t[TDH] >> 32)) & 0xFFFFFFFF'),
    ('orbit_not_stored', 't[INTERNAL] = orbit << 12 | bc;', 't[INTERNAL] = t[ORBIT] << 12 | bc;'),
    ('1046_from_2_31_and_1', 'orbits >= HALF_A_TURN', 'orbits > HALF_A_TURN'),
    ('1046_from_2_31_less_1', 'orbits >= HALF_A_TURN', 'orbits >= HALF_A_TURN - 1'),
    ('1046_at_equal_crossings', '(orbits == 0 && bc < previous)', '(orbits == 0 && bc <= previous)'),
    ('1046_at_a_smaller_crossing_of_a_later_orbit', '(orbits == 0 && bc < previous)', '(orbits <= 1 && bc < previous)'),
    ('1046_not_in_the_orbit', ' || (orbits == 0 && bc < previous)', ''),
    ('1046_swapped', 'say(r, 1046, previous, bc)', 'say(r, 1046, bc, previous)'),
    ('1046_is_45', 'say(r, 1046, previous, bc)', 'say(r, 45, previous, bc)'),
    ('1046_before_1045', 'if (previous > LAST_BC || bc > LAST_BC) {', 'if ((previous > LAST_BC || bc > LAST_BC) && !(t[RULE] == KHZ_RULE_2 && orbits >= HALF_A_TURN)) {'),
    ('1046_under_rule_1', 'if (t[RULE] == KHZ_RULE_1) {', 'if (t[RULE] == KHZ_RULE_1 && orbits < HALF_A_TURN) {'),
    ('rule_2_of_3563_crossings', 'orbits * ORBIT_LENGTH + bc', 'orbits * LAST_BC + bc'),
    ('found_period_cut_to_32_bits', 'found = orbits * ORBIT_LENGTH + bc - previous;', 'found = (orbits * ORBIT_LENGTH + bc - previous) & 0xFFFFFFFF;'),
    ('frame_opened_at_continuation', 't[FRAME] == NONE && !continuation)', 't[FRAME] == NONE)'),
    ('frame_opened_again', 'if (t[FRAMES] && t[FRAME] == NONE && !continuation)', 'if (t[FRAMES] && !continuation)'),
    ('frame_without_frames', 'if (t[FRAMES] && t[FRAME] == NONE && !continuation)', 'if (t[FRAME] == NONE && !continuation)'),
    # TDT, DDW0
    ('tdt_reserved_60_forgotten', 'w.low >> 56 & 0x1F', 'w.low >> 56 & 0x0F'),
    ('tdt_timeout_is_reserved', 'w.low >> 56 & 0x1F', 'w.low >> 56 & 0x3F'),
    ('tdt_reserved_66_forgotten', 'w.high & 0xF4', 'w.high & 0xF0'),
    ('tdt_reserved_71_forgotten', 'w.high & 0xF4', 'w.high & 0x74'),
    ('frame_opened_at_59', '    if (done && t[FRAME] != NONE) {', '    if (t[FRAMES] && done && t[FRAME] == NONE) {\n        t[FRAME] = r->position;\n    } else if (done && t[FRAME] != NONE) {'),
    ('59_without_frames', 'if (t[FRAMES] && done && t[FRAME] == NONE)', 'if (done && t[FRAME] == NONE)'),
    ('59_when_not_done', 'if (t[FRAMES] && done && t[FRAME] == NONE)', 'if (t[FRAMES] && t[FRAME] == NONE)'),
    ('frame_closed_when_not_done', '    if (done && t[FRAME] != NONE) {', '    if (t[FRAME] != NONE) {'),
    ('frame_not_closed', '        t[FRAME] = NONE;\n    }\n    t[STATE] = done', '    }\n    t[STATE] = done'),
    ('992_after_60', '        say(r, 992, w.id, 0);\n        say(r, 60, 1, 0);', '        say(r, 60, 1, 0);\n        say(r, 992, w.id, 0);'),
    ('ddw0_reserved_63_forgotten', 'w.low >> 56 | (w.high & 0x05)', '(w.low << 1 >> 57) | (w.high & 0x05)'),
    ('ddw0_reserved_64_forgotten', 'w.high & 0x05', 'w.high & 0x04'),
    ('ddw0_65_is_reserved', 'w.high & 0x05', 'w.high & 0x07'),
    ('ddw0_index_forgotten', '(w.high >> 4 ? 4 : 0)', '0'),
    ('1110_stop_is_one_bit', 'if (t[STOP] != 1)', 'if (!(t[STOP] & 1))'),
    ('1111_forgotten', 'say(r, 1111, t[PAGE], 0)', '(void)0'),
    ('ddw0_page_without_running', '    if (t[RUNNING]) {\n        if (t[STOP] != 1)', '    {\n        if (t[STOP] != 1)'),
    # data words and CDW
    ('second_cdw_gets_no_70', 'if (!known)\n            say(r, 70', 'if (!known && !cdw)\n            say(r, 70'),
    ('991_forgotten', 'say(r, 991, w.id, 0)', '(void)0'),
    ('81_at_index_0', 'user != t[CDW] && index != 0', 'user != t[CDW]'),
    ('81_at_equal_fields', 'user != t[CDW] && index != 0', 'index != 0'),
    ('81_at_the_first', 't[CDW] != NONE && user', 'user'),
    ('81_without_running', 'if (t[RUNNING] && t[CDW] != NONE', 'if (t[CDW] != NONE'),
    ('index_of_16_bits', '| (uint64_t)w.high << 16;', ';'),
    ('cdw_not_stored', '        t[CDW] = user;', '        ;'),
    ('second_cdw_stored', '    if (first_cdw)\n        t[CDW] = user;', '    if (cdw)\n        t[CDW] = user;'),
    ('cdw_is_no_data', '    t[SEEN] = 1;\n    a->guessed', '    if (!cdw)\n        t[SEEN] = 1;\n    a->guessed'),
    ('inner_ids_to_29', '(on & 0x1FF) |', '(on & 0x3FF) |'),
    ('outer_ids_to_5f', '(on >> 21 & 0x7F) << 56', '((on >> 21 & 0x7F) | 0x80) << 56'),
    ('lane_78_tested_as_14', 'outer_lane(w.id), 27', 'outer_lane(w.id) % 32, 27'),
    ('id_47_is_lane_14', 'id <= 0x46 ? id % 64 :', 'id <= 0x47 ? 7 + id % 64 :'),
    ('input_of_two_bits', 'input = w.id % 8', 'input = w.id % 4'),
    ('1073_before_the_lane', '            say_lane(r, 1071, outer_lane(w.id), 27, t[LANES]);\n            if (input > 6)\n                say(r, 1073, input, 0);', '            if (input > 6)\n                say(r, 1073, input, 0);\n            say_lane(r, 1071, outer_lane(w.id), 27, t[LANES]);'),
    ('1073_in_place_of_the_lane', '            say_lane(r, 1071, outer_lane(w.id), 27, t[LANES]);\n            if (input > 6)\n                say(r, 1073, input, 0);', '            if (input > 6)\n                say(r, 1073, input, 0);\n            else\n                say_lane(r, 1071, outer_lane(w.id), 27, t[LANES]);'),
    ('inner_lane_without_running', 'if (t[RUNNING] && w.id >> 5 == 1)', 'if (w.id >> 5 == 1)'),
    ('outer_lane_without_running', 'else if (t[RUNNING] && w.id >> 5 == 2)', 'else if (w.id >> 5 == 2)'),
    ('1071_and_1072_swapped', 'say(r, code, lane, lanes)', 'say(r, code, lanes, lane)'),
    ('1071_is_1072', 'say_lane(r, 1071,', 'say_lane(r, 1072,'),
    ('inner_lanes_to_9', 'w.id % 32, 8, t[LANES]', 'w.id % 32, 9, t[LANES]'),
    ('inner_lanes_to_7', 'w.id % 32, 8, t[LANES]', 'w.id % 32, 7, t[LANES]'),
    ('inner_lanes_to_27', 'w.id % 32, 8, t[LANES]', 'w.id % 32, 27, t[LANES]'),
    ('outer_lanes_to_28', 'outer_lane(w.id), 27', 'outer_lane(w.id), 28'),
    ('outer_lanes_to_26', 'outer_lane(w.id), 27', 'outer_lane(w.id), 26'),
    ('1074_is_the_code_of_its_barrel', 'say(r, 1074, lane, lanes)', 'say(r, code, lane, lanes)'),
    ('1074_second_is_0', 'say(r, 1074, lane, lanes)', 'say(r, 1074, lane, 0)'),
    ('1074_forgotten', 'say(r, 1074, lane, lanes)', '(void)0'),
    ('1074_where_its_bit_is_clear_alone', 'if (lane > last)', 'if (lane > last && (lane > 27 || !(lanes >> lane & 1)))'),
    ('70_before_991', '        if (!known && !cdw)\n            say(r, 991, w.id, 0);\n        if (!known)\n            say(r, 70, w.id, 0);', '        if (!known)\n            say(r, 70, w.id, 0);\n        if (!known && !cdw)\n            say(r, 991, w.id, 0);'),
    # refusals and payloads: what only khz_driver -c can notice
    ('counted_though_refused', '    if (taken) {\n        t[COUNT]++;', '    t[COUNT]++;\n    if (taken) {'),
    ('stored_though_refused', '    if (!put(r, b))\n        return false;\n    t[LANES] =', '    t[PAGE] = 0;\n    if (!put(r, b))\n        return false;\n    t[LANES] ='),
    ('wrote_though_refused', '    if (r->n > b->room - b->used)\n        return false;', '    if (r->n > b->room - b->used) {\n        if (b->room > b->used)\n            b->records[b->used * KHZ_RECORD_NUMBERS] = 0;\n        return false;\n    }'),
    ('room_rounded_up', '    khz_word_answer a = {.refusal = KHZ_DONE};\n    buffer b = {records, 0, records_len /', '    khz_word_answer a = {.refusal = KHZ_DONE};\n    buffer b = {records, 0, (records_len + 4) /'),
    ('room_by_four', '    khz_word_answer a = {.refusal = KHZ_DONE};\n    buffer b = {records, 0, records_len / KHZ_RECORD_NUMBERS}',
     '    khz_word_answer a = {.refusal = KHZ_DONE};\n    buffer b = {records, 0, records_len / 4}'),
    ('payload_room_by_four', '    khz_payload_answer p = {0, 0, 0};\n    buffer b = {records, 0, records_len / KHZ_RECORD_NUMBERS}',
     '    khz_payload_answer p = {0, 0, 0};\n    buffer b = {records, 0, records_len / 4}'),
    ('records_four_numbers_apart', 'memcpy(b->records + b->used * KHZ_RECORD_NUMBERS,', 'memcpy(b->records + b->used * 4,'),
    ('word_of_11_bytes', 'if (word_len != KHZ_WORD_BYTES)', 'if (word_len / 2 != KHZ_WORD_BYTES / 2)'),
    ('2_before_1', '    if (word_len != KHZ_WORD_BYTES)\n', '    if (t[STRIDE] == 0)\n        return (khz_word_answer){.refusal = KHZ_NO_PACKET};\n    if (word_len != KHZ_WORD_BYTES)\n'),
    ('3_before_1', '    if (word_len != KHZ_WORD_BYTES)\n', '    if (t[COUNT] == KHZ_PACKET_WORDS)\n        return (khz_word_answer){.refusal = KHZ_PACKET_FULL};\n    if (word_len != KHZ_WORD_BYTES)\n'),
    ('4095_words', 'if (t[COUNT] == KHZ_PACKET_WORDS)\n        return', 'if (t[COUNT] == KHZ_PACKET_WORDS - 1)\n        return'),
    ('4097_words', 'if (t[COUNT] == KHZ_PACKET_WORDS)\n        return', 'if (t[COUNT] == KHZ_PACKET_WORDS + 1)\n        return'),
    ('payload_of_4097_words', 'left = (KHZ_PACKET_WORDS - t[COUNT])', 'left = (KHZ_PACKET_WORDS + 1 - t[COUNT])'),
    ('payload_length_not_asked', ': payload_len % KHZ_WORD_BYTES != 0 ', ': payload_len % 2 != 0 '),
    ('payload_first_word_only', '        at += KHZ_WORD_BYTES;\n    }\n    p.words', '        at += KHZ_WORD_BYTES;\n        break;\n    }\n    p.words'),
    ('payload_made_up_count', 'p.records = b.used;', 'p.records = p.words;'),
    ('payload_quiet_words_not_seen', '                t[SEEN] = 1;\n                if (at', '                if (at'),
    ('payload_quiet_words_not_counted', '                t[COUNT] += (at - from) / KHZ_WORD_BYTES;\n', ''),
    ('packet_position_not_asked', 'position > KHZ_POSITION_MAX || orbit', 'orbit'),
    ('packet_orbit_cut', 'orbit >> 32 || ', ''),
    ('packet_trigger_type_cut', 'trigger_type >> 32 || ', ''),
    ('packet_page_cut', 'page >> 16 || ', ''),
    ('packet_stop_cut', 'stop >> 8 || ', ''),
    ('packet_bc_not_asked', 'bc > 4095 || ', ''),
    ('packet_bc_cut', 'bc > 4095 || ', 'bc % 65536 > 4095 || '),
    ('flag_of_two_starts', 'running > 1 || ', ''),
    ('period_cut_to_32_bits', 'period > KHZ_PERIOD_MAX', '(uint32_t)period > KHZ_PERIOD_MAX'),
    ('rule_0_starts', 'rule != KHZ_RULE_1 && rule != KHZ_RULE_2', 'rule > KHZ_RULE_2'),
    ('rule_3_starts', 'rule != KHZ_RULE_1 && rule != KHZ_RULE_2', 'rule < KHZ_RULE_1 || rule > 3'),
    ('rule_cut_to_32_bits', 'rule != KHZ_RULE_1 && rule != KHZ_RULE_2', '(uint32_t)rule != KHZ_RULE_1 && (uint32_t)rule != KHZ_RULE_2'),
    ('packet_format_1', '(format != 0 && format != 2)', 'format > 2'),
    ('start_keeps_what_stood_there', '    memset(t, 0, KHZ_TRACKER_WORDS * sizeof *t);\n', '    memset(t, 0, (KHZ_TRACKER_WORDS - 1) * sizeof *t);\n'),
    ('wrote_behind_the_records', 'r->n * sizeof r->number[0]);\n    b->used', '(r->n < 6 ? r->n + 1 : 6) * sizeof r->number[0]);\n    b->used'),
]


def edited(text, entry):
    name, old, new = entry[:3]
    if len(entry) == 4:  # the last of several
        at = text.rfind(old)
        return text[:at] + new + text[at + len(old):] if at >= 0 else None
    return text.replace(old, new) if text.count(old) == 1 else None


def main():
    p = argparse.ArgumentParser(description='Wrong versions of plain.c that the comparison must notice.')
    p.add_argument('--seed', type=int, default=1)
    p.add_argument('--every', type=int, default=1)
    p.add_argument('--build')
    a = p.parse_args()
    wrong = WRONG[::a.every]
    os.environ['CFLAGS'] = '-O1 -w'
    with open(os.path.join(compare.HERE, 'plain.c')) as f:
        text = f.read()
    missed = 0
    with tempfile.TemporaryDirectory(prefix='khandzorul-wrong-') as folder:
        calls, ours, rust, plain = (os.path.join(folder, n) for n in ('calls.txt', 'ours.txt', 'rust.txt', 'plain.c'))
        inputs, _ = smallest.read()
        compare.make_calls(calls, inputs, a.seed, 'short')
        compare.run([compare.build_rust(a.build or os.path.join(folder, 'rust'))], calls, rust)
        for entry in [('as it is', '', '', 0)] + wrong:
            changed = edited(text, entry)
            if changed is None:
                raise compare.Failed('%s: its text does not stand once in plain.c' % entry[0])
            with open(plain, 'w') as f:
                f.write(changed)
            driver = compare.build_ours(folder, None, plain)
            with open(calls) as i, open(ours, 'w') as o:
                promises = subprocess.run([driver, '-c'], stdin=i, stdout=o, stderr=subprocess.DEVNULL).returncode == 0
            try:
                t = compare.compare(calls, ours, rust, inputs)
                same = not t.unexplained and not t.otherwise
            except (ValueError, IndexError):  # answers that are none
                same = False
            right = promises and same
            if right != (entry[0] == 'as it is'):
                missed += 1
                print('wrong: %s %s' % (entry[0], 'passes' if right else 'is refused'), flush=True)
    print('wrong: %d wrong versions%s, %d not noticed' % (len(wrong), ' of %d' % len(WRONG) if len(wrong) < len(WRONG) else '', missed))
    return missed == 0


if __name__ == '__main__':
    try:
        sys.exit(0 if main() else 1)
    except compare.LeftOut as e:
        print('wrong: left out (%s)' % e)
    except compare.Failed as e:
        print('wrong: failed: %s' % e)
        sys.exit(1)
