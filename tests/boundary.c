/* boundary.c: the C boundary by example: 01's whole case through word and payload calls, every number and length that comes in about the edge of
 * its range, khz_check_file about its edges, the writers of words beside a model that sets bit after bit, the worst lane beside all 28, two
 * trackers that are back in step, the page at an IHW, every id in the data section against the active lanes, and the count of packets up to its last.
 *
 *     cc -std=c11 -I include tests/boundary.c libkhandzorul.a -o /tmp/boundary && /tmp/boundary
 *
 * What holds at every call (refusals, records left alone, payloads against words) is checked by oracle/khz_driver.c -c.
 * Last line: `boundary: N checks, M failed`; the exit status says the same.
 */
#include "khandzorul.h"

#include <inttypes.h>
#include <stdbool.h>
#include <stdio.h>
#include <stdlib.h>
#include <string.h>

static unsigned checks, failed;

static void expect(bool holds, const char *what)
{
    checks++;
    if (!holds) {
        failed++;
        printf("boundary: %s\n", what);
    }
}

/* 01's whole case, 90 bytes. */
static const uint8_t whole_case[90] = {
    1, 0, 0, 0, 5, 0, 0, 0, 0x10, 0, 0, 0, 0x28, 0, 0, 0,
    0, 0, 0, 0, 0, 0, 0, 0, 7, 0, 0, 0, 0x10, 0, 0, 0, 0xEC, 0x0D, 0, 0, 0, 2, 5, 0,
    1, 0, 0, 0, 0, 0, 0, 0, 0, 0xE0,
    0x10, 0x10, 0xEC, 0x0D, 7, 0, 0, 0, 0, 0xE8,
    0, 0, 0, 0, 0, 0, 0, 0, 0, 0x21,
    0, 0, 0, 0, 0, 0, 0, 0, 1, 0xF0,
    0x10, 0x30, 0xC6, 0, 7, 0, 0, 0, 0, 0xE8,
};
enum { CASE_WORDS = 40 };                            /* where the words begin */

/* What it gives, by either rule of a period, word by word: kind, records, frame, its start and end, lanes; then the records. */
static const uint64_t case_answers[5][6] = {
    {KHZ_IHW, 0, KHZ_FRAME_NONE, 0, 0, 1},
    {KHZ_TDH, 0, KHZ_FRAME_OPENED, 0, 0, 0},
    {KHZ_DATA_WORD, 1, KHZ_FRAME_NONE, 0, 0, 0},
    {KHZ_TDT, 0, KHZ_FRAME_CLOSED, 74, 94, 0},
    {KHZ_TDH_AFTER_PACKET_DONE, 2, KHZ_FRAME_OPENED, 0, 0, 0},
};
static const uint64_t case_records[3][KHZ_RECORD_NUMBERS] = {{84, 1072, 1, 1, 1}, {104, 440, 3564, 198, 1}, {104, 1045, 3564, 198, 1}};

static void begin_case(uint64_t *t, uint64_t rule)
{
    expect(khz_start(t, KHZ_TRACKER_WORDS, 1, 1, 1, 198, rule) == KHZ_DONE, "khz_start is refused");
    expect(khz_packet(t, KHZ_TRACKER_WORDS, 0, 7, 0x10, 3564, 0, 0, 2) == KHZ_DONE, "the packet of the whole case is refused");
}

static void case_by_words(uint64_t rule)
{
    uint64_t t[KHZ_TRACKER_WORDS], records[KHZ_RECORDS_PER_WORD * KHZ_RECORD_NUMBERS];
    const uint64_t *next = case_records[0];

    begin_case(t, rule);
    for (int i = 0; i < 5; i++) {
        const uint64_t *want = case_answers[i];
        khz_word_answer a = khz_word(t, KHZ_TRACKER_WORDS, whole_case + CASE_WORDS + 10 * i, KHZ_WORD_BYTES, records, sizeof records / sizeof *records);
        expect(a.refusal == KHZ_DONE && a.guessed == 0, "a word of the whole case is refused or guessed");
        expect(a.kind == want[0] && a.records == want[1], "a word of the whole case has another kind or other records");
        expect(a.frame == want[2] && a.frame_start == want[3] && a.frame_end == want[4], "a word of the whole case has another frame");
        expect(a.lanes == want[5], "a word of the whole case has another count of lanes");
        if (a.records == want[1]) {
            expect(memcmp(records, next, a.records * sizeof case_records[0]) == 0, "a word of the whole case gives other records");
            next += a.records * KHZ_RECORD_NUMBERS;
        }
    }
}

static void case_by_payload(uint64_t rule)
{
    uint64_t t[KHZ_TRACKER_WORDS], records[3 * KHZ_RECORD_NUMBERS];
    khz_payload_answer a;

    begin_case(t, rule);
    a = khz_payload(t, KHZ_TRACKER_WORDS, whole_case + CASE_WORDS, 50, records, sizeof records / sizeof *records);
    expect(a.refusal == KHZ_DONE && a.words == 5 && a.records == 3, "the payload of the whole case has another answer");
    expect(memcmp(records, case_records, sizeof case_records) == 0, "the payload of the whole case gives other records");

    /* room for two records: the last word has two, and one is used */
    begin_case(t, rule);
    a = khz_payload(t, KHZ_TRACKER_WORDS, whole_case + CASE_WORDS, 50, records, 2 * KHZ_RECORD_NUMBERS);
    expect(a.refusal == KHZ_NO_ROOM && a.words == 4 && a.records == 1, "the payload of the whole case with little room has another answer");
    a = khz_payload(t, KHZ_TRACKER_WORDS, whole_case + CASE_WORDS + 10 * a.words, 10, records, 2 * KHZ_RECORD_NUMBERS);
    expect(a.refusal == KHZ_DONE && a.words == 1 && a.records == 2, "the rest of the whole case has another answer");
    expect(memcmp(records, case_records[1], 2 * sizeof case_records[0]) == 0, "the rest of the whole case gives other records");
}

/* Whether the first n numbers of an array of 16 are these, and the rest is as it was before the call. */
enum { ARRAY = 16 };
static bool wrote(const uint64_t *array, const uint64_t *before, const uint64_t *numbers, size_t n)
{
    return memcmp(array, numbers, n * sizeof *array) == 0 && memcmp(array + n, before + n, (ARRAY - n) * sizeof *array) == 0;
}

/* Room of so many numbers: a record takes five of them, and fewer are none. Of the whole case the third word gives one record, and the last two. */
static void rooms(void)
{
    uint64_t begun[KHZ_TRACKER_WORDS], t[KHZ_TRACKER_WORDS], records[ARRAY], before[ARRAY];
    const uint64_t *next = case_records[0];

    memset(before, 0xA5, sizeof before);
    begin_case(begun, KHZ_RULE_1);
    for (int i = 0; i < 5; i++) {
        const uint8_t *w = whole_case + CASE_WORDS + 10 * i;
        const uint64_t n = case_answers[i][1];
        for (size_t len = 0; len <= ARRAY; len++) {
            const bool fits = len >= 5 * n;
            const uint64_t refusal = fits ? KHZ_DONE : KHZ_NO_ROOM, given = fits ? n : 0;
            khz_word_answer a;
            khz_payload_answer b;
            memcpy(t, begun, sizeof t);
            memcpy(records, before, sizeof records);
            a = khz_word(t, KHZ_TRACKER_WORDS, w, KHZ_WORD_BYTES, records, len);
            expect(a.refusal == refusal && a.records == given, "khz_word has another room than five numbers a record");
            expect(wrote(records, before, next, 5 * given), "khz_word writes other numbers than its records");
            expect(fits || memcmp(t, begun, sizeof t) == 0, "khz_word without room changed the tracker");
            memcpy(t, begun, sizeof t);
            memcpy(records, before, sizeof records);
            b = khz_payload(t, KHZ_TRACKER_WORDS, w, KHZ_WORD_BYTES, records, len);
            expect(b.refusal == refusal && b.records == given, "khz_payload has another room than five numbers a record");
            expect(wrote(records, before, next, 5 * given), "khz_payload writes other numbers than its records");
            expect(fits || memcmp(t, begun, sizeof t) == 0, "khz_payload without room changed the tracker");
        }
        expect(khz_word(begun, KHZ_TRACKER_WORDS, w, KHZ_WORD_BYTES, records, ARRAY).refusal == KHZ_DONE, "a word of the whole case is refused");
        next += 5 * n;
    }
}

/* A packet at a position, all else 0. */
static uint64_t packet_at(uint64_t *t, uint64_t position)
{
    return khz_packet(t, KHZ_TRACKER_WORDS, position, 0, 0, 0, 0, 0, 2);
}

/* Where a tracker keeps the count of packets. A tracker's numbers are the library's, and these tests reach in all the same: no one makes 4,294,967,295
 * calls. The same packet twice changes the count and no other number. */
static size_t place_of_count;
static void find_count(void)
{
    uint64_t t[KHZ_TRACKER_WORDS], before[KHZ_TRACKER_WORDS];
    int changed = 0;

    expect(khz_start(t, KHZ_TRACKER_WORDS, 0, 0, 0, 0, KHZ_RULE_1) == KHZ_DONE, "khz_start is refused");
    expect(packet_at(t, 0) == KHZ_DONE, "a packet is refused");
    memcpy(before, t, sizeof t);
    expect(packet_at(t, 0) == KHZ_DONE, "the same packet again is refused");
    for (size_t i = 0; i < KHZ_TRACKER_WORDS; i++)
        if (t[i] != before[i]) {
            changed++;
            place_of_count = i;
        }
    expect(changed == 1 && before[place_of_count] == 1 && t[place_of_count] == 2, "the same packet again changes another number than the count");
}

/* Whether an IHW with a reserved bit, as the first word of the packet at this position and behind a reset, gives its record and says this packet: in a
 * word call and in a payload call, each on a copy of the tracker. */
static bool says(const uint64_t *tracker, uint64_t position, uint64_t packet)
{
    static const uint8_t ihw[KHZ_WORD_BYTES] = {[3] = 0x10, [9] = 0xE0};
    const uint64_t want[KHZ_RECORD_NUMBERS] = {position + 64, KHZ_CODE_IHW, 2, 0, packet};
    uint64_t t[KHZ_TRACKER_WORDS], r[KHZ_RECORD_NUMBERS] = {0}, s[KHZ_RECORD_NUMBERS] = {0};
    bool as_said;

    memcpy(t, tracker, sizeof t);
    as_said = khz_reset(t, KHZ_TRACKER_WORDS) == KHZ_DONE && khz_word(t, KHZ_TRACKER_WORDS, ihw, sizeof ihw, r, KHZ_RECORD_NUMBERS).records == 1;
    memcpy(t, tracker, sizeof t);
    as_said = as_said && khz_reset(t, KHZ_TRACKER_WORDS) == KHZ_DONE;
    as_said = as_said && khz_payload(t, KHZ_TRACKER_WORDS, ihw, sizeof ihw, s, KHZ_RECORD_NUMBERS).records == 1;
    return as_said && memcmp(r, want, sizeof want) == 0 && memcmp(s, want, sizeof want) == 0;
}

/* A packet that must be refused with this number, and leave the tracker. */
static void refuses(uint64_t *t, uint64_t position, uint64_t bc, uint64_t number, const char *what)
{
    uint64_t before[KHZ_TRACKER_WORDS];

    memcpy(before, t, sizeof before);
    expect(khz_packet(t, KHZ_TRACKER_WORDS, position, 1, 1, bc, 1, 1, 0) == number, what);
    expect(memcmp(before, t, sizeof before) == 0, "a refused packet changed the tracker");
}

/* Packets are counted from 1; one that is refused is not, a reset keeps the count, and khz_start counts anew. The position does not matter: the source was
 * restarted, and two packets come from one. */
static void count_of_packets(void)
{
    uint64_t t[KHZ_TRACKER_WORDS], u[KHZ_TRACKER_WORDS];
    bool counted = true;

    expect(khz_start(t, KHZ_TRACKER_WORDS, 1, 1, 0, 0, KHZ_RULE_1) == KHZ_DONE, "khz_start is refused");
    refuses(t, 0, 4096, KHZ_PACKET_FIELD, "BC 4096 before any packet is not refused with 5");
    expect(packet_at(t, 5000) == KHZ_DONE && says(t, 5000, 1), "the first packet is not 1");
    expect(packet_at(t, 5000) == KHZ_DONE && says(t, 5000, 2), "a second packet of the same position is not 2");
    refuses(t, 5000, 4096, KHZ_PACKET_FIELD, "BC 4096 is not refused with 5");
    refuses(t, KHZ_POSITION_MAX + 1, 0, KHZ_PACKET_FIELD, "a position above 2^62 is not refused with 5");
    expect(says(t, 5000, 2), "a refused packet counts");
    memcpy(u, t, sizeof t);
    expect(packet_at(t, 0) == KHZ_DONE && says(t, 0, 3), "a packet behind one that was refused is not 3");
    expect(khz_reset(t, KHZ_TRACKER_WORDS) == KHZ_DONE && t[place_of_count] == 3 && says(t, 0, 3), "khz_reset does not keep the count");
    expect(packet_at(t, KHZ_POSITION_MAX) == KHZ_DONE && says(t, KHZ_POSITION_MAX, 4), "a packet behind a reset is not 4");
    expect(packet_at(u, 0) == KHZ_DONE && says(u, 0, 3), "a copy does not count on its own");
    expect(khz_start(t, KHZ_TRACKER_WORDS, 1, 1, 0, 0, KHZ_RULE_1) == KHZ_DONE, "khz_start is refused");
    expect(packet_at(t, 5000) == KHZ_DONE && says(t, 5000, 1), "khz_start does not count anew");
    for (uint64_t n = 2; n <= 70000; n++)
        counted = counted && packet_at(t, n % 3) == KHZ_DONE && says(t, n % 3, n);
    expect(counted, "one of 70,000 packets does not say its number");
}

/* About the last packet: it is accepted, the next is refused with 10 and leaves all, 100 and 5 come before that; words go on, a reset keeps the count. */
static void last_packet(void)
{
    static const uint64_t counts[] = {1, 65534, 65535, 65536, 2147483647, 2147483648, KHZ_PACKETS_MAX - 2, KHZ_PACKETS_MAX - 1};
    static const uint8_t words[2 * KHZ_WORD_BYTES] = {[3] = 0x10, [9] = 0xE0, [19] = 0xE0}; /* an IHW with a reserved bit, and one where a TDH is due */
    uint64_t t[KHZ_TRACKER_WORDS], before[KHZ_TRACKER_WORDS], r[2 * KHZ_RECORD_NUMBERS] = {0};
    const uint64_t want[2 * KHZ_RECORD_NUMBERS] = {64, KHZ_CODE_IHW, 2, 0, 4294967295, 74, KHZ_CODE_TDH, 1, 0, 4294967295};
    khz_payload_answer p;

    expect(khz_start(t, KHZ_TRACKER_WORDS, 0, 0, 0, 0, KHZ_RULE_1) == KHZ_DONE && packet_at(t, 0) == KHZ_DONE, "a packet is refused");
    for (size_t i = 0; i < sizeof counts / sizeof *counts; i++) {
        t[place_of_count] = counts[i];
        expect(packet_at(t, i) == KHZ_DONE && says(t, i, counts[i] + 1), "a packet up to the last is refused, or not counted");
    }
    expect(t[place_of_count] == 4294967295 && packet_at(t, 0) == KHZ_LAST_PACKET, "the packet beyond 4,294,967,295 is not refused with 10");
    t[place_of_count]--;
    expect(packet_at(t, 0) == KHZ_DONE, "the last packet is refused");

    /* a word of the last packet, a packet that is refused, the next word */
    expect(khz_word(t, KHZ_TRACKER_WORDS, words, KHZ_WORD_BYTES, r, KHZ_RECORD_NUMBERS).records == 1, "a word of the last packet gives no record");
    expect(memcmp(r, want, KHZ_RECORD_NUMBERS * sizeof *r) == 0, "a word of the last packet gives another record");
    refuses(t, 7, 4095, KHZ_LAST_PACKET, "a packet beyond the last count is not refused with 10");
    refuses(t, 7, 4096, KHZ_PACKET_FIELD, "5 does not come before 10");
    refuses(t, KHZ_POSITION_MAX + 1, 0, KHZ_PACKET_FIELD, "5 does not come before 10");
    memcpy(before, t, sizeof t);
    expect(khz_packet(t, KHZ_TRACKER_WORDS - 1, 0, 0, 0, 0, 0, 0, 2) == KHZ_NO_TRACKER, "100 does not come before 10");
    expect(memcmp(before, t, sizeof t) == 0, "a refused packet changed the tracker");
    p = khz_payload(t, KHZ_TRACKER_WORDS, words + KHZ_WORD_BYTES, KHZ_WORD_BYTES, r + KHZ_RECORD_NUMBERS, KHZ_RECORD_NUMBERS);
    expect(p.refusal == KHZ_DONE && p.words == 1 && p.records == 1, "a payload behind a packet refused with 10 is not taken");
    expect(memcmp(r, want, sizeof want) == 0, "a payload behind a packet refused with 10 gives another record");
    expect(khz_reset(t, KHZ_TRACKER_WORDS) == KHZ_DONE, "khz_reset is refused");
    refuses(t, 7, 0, KHZ_LAST_PACKET, "a reset counts packets anew");
    expect(khz_start(t, KHZ_TRACKER_WORDS, 0, 0, 0, 0, KHZ_RULE_1) == KHZ_DONE, "khz_start is refused");
    expect(packet_at(t, 0) == KHZ_DONE && says(t, 0, 1), "khz_start does not count anew");
}

/* An array whose count can't be: every call refuses it with 100 and leaves it. */
static void no_count(const uint64_t *tracker, uint64_t count)
{
    uint64_t t[KHZ_TRACKER_WORDS], before[KHZ_TRACKER_WORDS], r[KHZ_RECORD_NUMBERS];
    const uint8_t *w = whole_case + CASE_WORDS;
    char what[80];

    memcpy(t, tracker, sizeof t);
    t[place_of_count] = count;
    memcpy(before, t, sizeof t);
    snprintf(what, sizeof what, "a tracker of %" PRIu64 " packets is not refused with 100", count);
    expect(packet_at(t, 0) == KHZ_NO_TRACKER, what);
    expect(khz_packet(t, KHZ_TRACKER_WORDS, 0, 0, 0, 4096, 0, 0, 2) == KHZ_NO_TRACKER, what);
    expect(khz_word(t, KHZ_TRACKER_WORDS, w, KHZ_WORD_BYTES, r, KHZ_RECORD_NUMBERS).refusal == KHZ_NO_TRACKER, what);
    expect(khz_payload(t, KHZ_TRACKER_WORDS, w, KHZ_WORD_BYTES, r, KHZ_RECORD_NUMBERS).refusal == KHZ_NO_TRACKER, what);
    expect(khz_reset(t, KHZ_TRACKER_WORDS) == KHZ_NO_TRACKER, what);
    expect(memcmp(before, t, sizeof t) == 0, "an array that is no tracker was changed");
}

/* Where a packet was accepted, 1 to 4,294,967,295 are counted, and where none was, none. */
static void counts_that_can_not_be(void)
{
    static const uint64_t past_all[] = {UINT64_C(1) << 32, (UINT64_C(1) << 32) + 1, UINT64_C(1) << 63, UINT64_MAX}, some[] = {1, 2, KHZ_PACKETS_MAX};
    uint64_t started[KHZ_TRACKER_WORDS], t[KHZ_TRACKER_WORDS];

    expect(khz_start(started, KHZ_TRACKER_WORDS, 1, 1, 1, 198, KHZ_RULE_1) == KHZ_DONE, "khz_start is refused");
    memcpy(t, started, sizeof t);
    expect(packet_at(t, 0) == KHZ_DONE, "a packet is refused");
    no_count(t, 0);
    for (size_t i = 0; i < sizeof past_all / sizeof *past_all; i++) {
        no_count(t, past_all[i]);
        no_count(started, past_all[i]);
    }
    for (size_t i = 0; i < sizeof some / sizeof *some; i++) {
        no_count(started, some[i]);
        t[place_of_count] = some[i];
        expect(khz_reset(t, KHZ_TRACKER_WORDS) == KHZ_DONE, "a tracker of 1 to 4,294,967,295 packets is refused");
    }
}

/* How far past its last value a number is handed in: by one, and by what a conversion to 16, 32 or 63 bits would cut off. */
static const uint64_t past[4] = {1, UINT64_C(1) << 16, UINT64_C(1) << 32, UINT64_C(1) << 63};
enum { PAST = sizeof past / sizeof *past };

static void packet_ranges(void)
{
    static const struct {
        const char *name;
        uint64_t last;
    } fields[7] = {{"position", KHZ_POSITION_MAX}, {"orbit", UINT32_MAX}, {"trigger_type", UINT32_MAX}, {"bc", 4095},
                   {"page", UINT16_MAX}, {"stop", UINT8_MAX}, {"format", 2}};
    uint64_t t[KHZ_TRACKER_WORDS], before[KHZ_TRACKER_WORDS], f[7] = {0};
    char what[64];

    expect(khz_start(t, KHZ_TRACKER_WORDS, 1, 1, 1, 198, KHZ_RULE_1) == KHZ_DONE, "khz_start is refused");
    for (int i = 0; i < 7; i++) {
        f[i] = fields[i].last;
        snprintf(what, sizeof what, "the last %s is refused", fields[i].name);
        expect(khz_packet(t, KHZ_TRACKER_WORDS, f[0], f[1], f[2], f[3], f[4], f[5], f[6]) == KHZ_DONE, what);
        memcpy(before, t, sizeof t);
        for (int k = 0; k < PAST; k++) {
            f[i] = fields[i].last + past[k];
            snprintf(what, sizeof what, "%s %" PRIu64 " is not refused with 5", fields[i].name, f[i]);
            expect(khz_packet(t, KHZ_TRACKER_WORDS, f[0], f[1], f[2], f[3], f[4], f[5], f[6]) == KHZ_PACKET_FIELD, what);
        }
        expect(memcmp(before, t, sizeof t) == 0, "a refused packet changed the tracker");
        f[i] = 0;
    }
    /* the two faults that this is for */
    expect(khz_packet(t, KHZ_TRACKER_WORDS, 0, 0, 0, 65541, 0, 0, 2) == KHZ_PACKET_FIELD, "a crossing of 65541 is taken for 5");
    expect(khz_packet(t, KHZ_TRACKER_WORDS, 0, 0, 0, 0, 0, 0, 258) == KHZ_PACKET_FIELD, "format 258 is taken for 2");
    expect(khz_packet(t, KHZ_TRACKER_WORDS, 0, 0, 0, 0, 0, 0, 1) == KHZ_PACKET_FIELD, "format 1 is not refused with 5");
}

static void setting_ranges(void)
{
    static const uint64_t last[5] = {1, 1, 1, KHZ_PERIOD_MAX, KHZ_RULE_2};
    uint64_t t[KHZ_TRACKER_WORDS], before[KHZ_TRACKER_WORDS], s[5] = {1, 1, 1, 198, KHZ_RULE_1};
    char what[64];

    for (int i = 0; i < 5; i++) {
        uint64_t kept = s[i];
        s[i] = last[i];
        expect(khz_start(t, KHZ_TRACKER_WORDS, s[0], s[1], s[2], s[3], s[4]) == KHZ_DONE, "the last value of a setting is refused");
        memcpy(before, t, sizeof t);
        for (int k = 0; k < PAST; k++) {
            s[i] = last[i] + past[k];
            snprintf(what, sizeof what, "setting %d of %" PRIu64 " is not refused with 101", i, s[i]);
            expect(khz_start(t, KHZ_TRACKER_WORDS, s[0], s[1], s[2], s[3], s[4]) == KHZ_NO_SETTINGS, what);
            expect(khz_start(t, KHZ_TRACKER_WORDS - 1, s[0], s[1], s[2], s[3], s[4]) == KHZ_NO_TRACKER, "100 does not come before 101");
        }
        expect(memcmp(before, t, sizeof t) == 0, "a refused khz_start wrote");
        s[i] = kept;
    }
    memcpy(before, t, sizeof t);
    expect(khz_start(t, KHZ_TRACKER_WORDS, 1, 1, 1, 4294967494, KHZ_RULE_1) == KHZ_NO_SETTINGS, "a period of 4,294,967,494 is taken for 198");
    expect(khz_start(t, KHZ_TRACKER_WORDS, 1, 1, 1, 198, 0) == KHZ_NO_SETTINGS, "rule 0 is not refused with 101");
    expect(khz_start(t, KHZ_TRACKER_WORDS, 1, 1, 0, 0, 0) == KHZ_NO_SETTINGS, "rule 0 is not refused with 101 without a period");
    expect(memcmp(before, t, sizeof t) == 0, "a refused khz_start wrote");
    /* without a period its number is not looked at */
    expect(khz_start(before, KHZ_TRACKER_WORDS, 1, 0, 0, 0, KHZ_RULE_1) == KHZ_DONE
               && khz_start(t, KHZ_TRACKER_WORDS, 1, 0, 0, UINT64_MAX, KHZ_RULE_1) == KHZ_DONE,
           "khz_start without a period is refused");
    expect(memcmp(before, t, sizeof t) == 0, "a period that is not set is kept");
    expect(khz_start(t, KHZ_TRACKER_WORDS, 1, 0, 0, 0, KHZ_RULE_2) == KHZ_DONE && memcmp(before, t, sizeof t) != 0, "the rule is not kept");
}

/* Running checks without frames: the records of the whole case, and no frame. Frames without running checks: its frames, and no record, since each of
 * the three comes with running checks alone. */
static void settings_apart(void)
{
    uint64_t t[KHZ_TRACKER_WORDS], records[KHZ_RECORDS_PER_WORD * KHZ_RECORD_NUMBERS];

    for (uint64_t running = 0; running < 2; running++) {
        expect(khz_start(t, KHZ_TRACKER_WORDS, running, 1 - running, 1, 198, KHZ_RULE_1) == KHZ_DONE, "khz_start is refused");
        expect(khz_packet(t, KHZ_TRACKER_WORDS, 0, 7, 0x10, 3564, 0, 0, 2) == KHZ_DONE, "the packet of the whole case is refused");
        for (int i = 0; i < 5; i++) {
            khz_word_answer a = khz_word(t, KHZ_TRACKER_WORDS, whole_case + CASE_WORDS + 10 * i, KHZ_WORD_BYTES, records, sizeof records / sizeof *records);
            expect(a.refusal == KHZ_DONE && a.records == (running ? case_answers[i][1] : 0), "records with frames off, or with running checks off");
            expect(a.frame == (running ? KHZ_FRAME_NONE : case_answers[i][2]), "frames with frames off, or with running checks off");
        }
    }
}

/* Lengths that are too large, by one and by what a conversion to 32 bits would cut off. 100 comes before 5 and before 1. */
static void lengths(void)
{
    static const size_t more[] = {
        1,
#if SIZE_MAX > UINT32_MAX
        (size_t)1 << 32,
#endif
    };
    uint64_t t[KHZ_TRACKER_WORDS], before[KHZ_TRACKER_WORDS], records[KHZ_RECORDS_PER_WORD * KHZ_RECORD_NUMBERS];
    const uint8_t *w = whole_case + CASE_WORDS;
    const size_t room = sizeof records / sizeof *records;

    begin_case(t, KHZ_RULE_1);
    memcpy(before, t, sizeof t);
    for (size_t k = 0; k < sizeof more / sizeof *more; k++) {
        size_t n = KHZ_TRACKER_WORDS + more[k], bytes = KHZ_WORD_BYTES + more[k];
        expect(khz_start(t, n, 1, 1, 1, 0, KHZ_RULE_1) == KHZ_NO_TRACKER, "khz_start takes a longer array");
        expect(khz_packet(t, n, 0, 0, 0, 4096, 0, 0, 2) == KHZ_NO_TRACKER, "khz_packet takes a longer array, or 100 does not come before 5");
        expect(khz_word(t, n, w, bytes, records, room).refusal == KHZ_NO_TRACKER, "khz_word takes a longer array, or 100 does not come before 1");
        expect(khz_payload(t, n, w, bytes, records, room).refusal == KHZ_NO_TRACKER, "khz_payload does");
        expect(khz_reset(t, n) == KHZ_NO_TRACKER, "khz_reset takes a longer array");
        expect(khz_word(t, KHZ_TRACKER_WORDS, w, bytes, records, room).refusal == KHZ_WRONG_LENGTH, "a longer word is not refused with 1");
        expect(khz_payload(t, KHZ_TRACKER_WORDS, w, bytes, records, room).refusal == KHZ_WRONG_LENGTH, "a longer payload is not refused with 1");
        expect(khz_check_file(whole_case, sizeof whole_case + more[k]) == KHZ_FILE_SHAPE, "a longer file is not refused with 6");
    }
    expect(memcmp(before, t, sizeof t) == 0, "a call with a wrong length changed the tracker");
}

/* An array that another version of the boundary wrote is no tracker, by its length, by what stands behind the numbers that are used, and by its mark. */
static void versions(void)
{
    const size_t length_3 = 32; /* numbers of a tracker up to KHZ_API 3 */
    uint64_t t[KHZ_TRACKER_WORDS], records[KHZ_RECORD_NUMBERS] = {0};

    expect(khz_start(t, length_3, 1, 1, 1, 198, KHZ_RULE_1) == KHZ_NO_TRACKER, "khz_start takes an array of KHZ_API 3");
    expect(khz_start(t, KHZ_TRACKER_WORDS, 1, 1, 1, 198, KHZ_RULE_1) == KHZ_DONE, "khz_start is refused");
    expect((t[0] & 0xFF) == KHZ_API, "a tracker's mark does not carry KHZ_API");
    expect(khz_reset(t, length_3) == KHZ_NO_TRACKER, "khz_reset takes a tracker of the length of KHZ_API 3");
    for (size_t i = length_3; i < KHZ_TRACKER_WORDS; i++) {
        expect(t[i] == 0, "khz_start leaves what stood at the end");
        t[i] = 1;
        expect(khz_reset(t, KHZ_TRACKER_WORDS) == KHZ_NO_TRACKER, "khz_reset takes a number that nothing stands for");
        t[i] = 0;
    }
    for (uint64_t api = 0; api < 256; api++)
        if (api != KHZ_API) {
            t[0] ^= KHZ_API ^ api;
            expect(khz_reset(t, KHZ_TRACKER_WORDS) == KHZ_NO_TRACKER, "khz_reset takes a tracker of another version");
            t[0] ^= KHZ_API ^ api;
        }
    expect(khz_reset(t, KHZ_TRACKER_WORDS) == KHZ_DONE, "khz_reset is refused");
    t[0] ^= KHZ_API ^ (KHZ_API - 1);
    expect(khz_packet(t, KHZ_TRACKER_WORDS, 0, 0, 0, 0, 0, 0, 2) == KHZ_NO_TRACKER, "khz_packet takes a tracker of an older version");
    expect(khz_word(t, KHZ_TRACKER_WORDS, whole_case, KHZ_WORD_BYTES, records, KHZ_RECORD_NUMBERS).refusal == KHZ_NO_TRACKER, "khz_word does");
    expect(khz_payload(t, KHZ_TRACKER_WORDS, whole_case, 0, records, KHZ_RECORD_NUMBERS).refusal == KHZ_NO_TRACKER, "khz_payload does");
    expect(khz_reset(t, KHZ_TRACKER_WORDS) == KHZ_NO_TRACKER, "khz_reset does");
}

static void put(uint8_t *p, uint64_t n, int bytes)
{
    for (int i = 0; i < bytes; i++)
        p[i] = (uint8_t)(n >> 8 * i);
}

/* A file of `packets` packets with counts[i] words each, all fields in range. Returns its length. */
static size_t make_file(uint8_t *f, uint32_t packets, const uint16_t *counts)
{
    size_t words = 0, at = 16 + 24 * (size_t)packets;

    memset(f, 0, at);
    for (uint32_t i = 0; i < packets; i++) {
        f[16 + 24 * i + 21] = 2;
        put(f + 16 + 24 * i + 22, counts[i], 2);
        words += counts[i];
    }
    put(f, packets, 4);
    put(f + 4, words, 4);
    put(f + 8, 16, 4);
    put(f + 12, at, 4);
    memset(f + at, 0, 10 * words);
    return at + 10 * words;
}

static void files(void)
{
    static uint8_t f[70000];
    uint16_t six[6] = {1000, 1000, 1000, 1000, 1000, 984}, one[1] = {5}, two[2] = {4097, 1}, none[2500] = {0};
    size_t n;

    expect(khz_check_file(whole_case, sizeof whole_case) == KHZ_DONE, "the whole case is no bench file");
    expect(khz_check_file(NULL, 0) == 6, "an empty file is not refused with 6");
    n = make_file(f, 0, none);
    expect(n == 16 && khz_check_file(f, n) == 0, "a file without packets is refused");
    expect(khz_check_file(f, 15) == 6, "15 bytes are not refused with 6");
    /* 2^29 packets: 24 times that is a multiple of 2^32, and a wrapped sum would pass */
    put(f, 0x20000000, 4);
    expect(khz_check_file(f, 16) == 6, "a header of 2^29 packets is not refused with 6");

    n = make_file(f, 1, one);
    expect(khz_check_file(f, n) == 0, "a file of one packet is refused");
    expect(khz_check_file(f, n - 1) == 6 && khz_check_file(f, n + 1) == 6 && khz_check_file(f, n + 10) == 6, "a wrong length is not refused with 6");
    f[8] = 17;
    expect(khz_check_file(f, n) == 6, "another packet offset is not refused with 6");
    make_file(f, 1, one);
    f[12] ^= 1;
    expect(khz_check_file(f, n) == 6, "another word offset is not refused with 6");
    make_file(f, 1, one);
    f[16 + 22] = 4;
    expect(khz_check_file(f, n) == 7, "counts that don't sum up are not refused with 7");
    f[16 + 21] = 1;
    expect(khz_check_file(f, n) == 7, "7 does not come before 5");
    make_file(f, 1, one);
    f[16 + 21] = 1;
    expect(khz_check_file(f, n) == 5, "format 1 is not refused with 5");
    make_file(f, 1, one);
    put(f + 16 + 16, 4095, 2);
    put(f + 16, KHZ_POSITION_MAX, 8);
    expect(khz_check_file(f, n) == 0, "the last BC or position is refused");
    put(f + 16 + 16, 4096, 2);
    expect(khz_check_file(f, n) == 5, "BC 4096 is not refused with 5");
    put(f + 16 + 16, 0, 2);
    put(f + 16, KHZ_POSITION_MAX + 1, 8);
    expect(khz_check_file(f, n) == 5, "a position above 2^62 is not refused with 5");

    n = make_file(f, 2, two);
    expect(khz_check_file(f, n) == 3, "a packet of 4,097 words is not refused with 3");
    f[16 + 24 + 21] = 1;
    expect(khz_check_file(f, n) == 3, "an earlier packet's 3 does not come before a later one's 5");
    f[16 + 21] = 1;
    expect(khz_check_file(f, n) == 5, "a packet's 5 does not come before its 3");
    two[0] = 4096;
    n = make_file(f, 2, two);
    expect(khz_check_file(f, n) == 0, "a packet of 4,096 words is refused");

    n = make_file(f, 6, six);
    expect(n == 60000 && khz_check_file(f, n) == 0, "a file of 60,000 bytes is refused");
    six[5]++;
    n = make_file(f, 6, six);
    expect(n == 60010 && khz_check_file(f, n) == 6, "a file of 60,010 bytes is not refused with 6");

    /* the most packets of a file: too few to meet 10 */
    n = make_file(f, 2499, none);
    expect(n == 59992 && khz_check_file(f, n) == 0, "a file of 2,499 packets is refused");
    n = make_file(f, 2500, none);
    expect(n == 60016 && khz_check_file(f, n) == 6, "a file of 2,500 packets is not refused with 6");
}

/* The kinds that can be written. A kind has an id and fields, from the table of docs/RULES.md, in the order of its writer's parameters; what belongs to no
 * field and not to the id is reserved. A data word has its id as a parameter, and its data as nine bytes. */
enum { IHW, TDH, TDT, DDW0, CDW, KINDS };
enum { MOST_FIELDS = 7 };
static const struct {
    const char *name;
    uint8_t id;
    int fields;
    struct {
        int high, low;
    } bits[MOST_FIELDS];
} kinds[KINDS] = {
    {"IHW", 0xE0, 1, {{27, 0}}},
    {"TDH", 0xE8, 6, {{11, 0}, {12, 12}, {13, 13}, {14, 14}, {27, 16}, {63, 32}}},
    {"TDT", 0xF0, 7, {{55, 0}, {63, 63}, {62, 62}, {61, 61}, {67, 67}, {65, 65}, {64, 64}}},
    {"DDW0", 0xE4, 4, {{55, 0}, {67, 67}, {65, 65}, {71, 68}}},
    {"CDW", 0xF8, 2, {{47, 0}, {71, 48}}},
};

static uint64_t write_word(int kind, const uint64_t *v, uint8_t *word, size_t len)
{
    switch (kind) {
    case IHW:
        return khz_write_ihw(v[0], word, len);
    case TDH:
        return khz_write_tdh(v[0], v[1], v[2], v[3], v[4], v[5], word, len);
    case TDT:
        return khz_write_tdt(v[0], v[1], v[2], v[3], v[4], v[5], v[6], word, len);
    case DDW0:
        return khz_write_ddw0(v[0], v[1], v[2], v[3], word, len);
    default:
        return khz_write_cdw(v[0], v[1], word, len);
    }
}

/* The model: the id, and each bit of each value at its place. */
static void model_word(int kind, const uint64_t *v, uint8_t *word)
{
    memset(word, 0, KHZ_WORD_BYTES);
    word[9] = kinds[kind].id;
    for (int i = 0; i < kinds[kind].fields; i++)
        for (int b = kinds[kind].bits[i].low; b <= kinds[kind].bits[i].high; b++)
            if (v[i] >> (b - kinds[kind].bits[i].low) & 1)
                word[b / 8] |= (uint8_t)(1 << b % 8);
}

static int width(int kind, int field)
{
    return kinds[kind].bits[field].high - kinds[kind].bits[field].low + 1;
}

/* The place for a word with a byte more on each side, all of them marked. */
enum { SPARE = 12 };
static const uint8_t marked[SPARE + 2] = {0xA5, 0xA5, 0xA5, 0xA5, 0xA5, 0xA5, 0xA5, 0xA5, 0xA5, 0xA5, 0xA5, 0xA5, 0xA5, 0xA5};

/* One call of a writer: what it answers, and that it writes the model's word or nothing. */
static void writes(int kind, const uint64_t *v, size_t len, uint64_t refusal, const char *what)
{
    uint8_t place[SPARE + 2], want[SPARE + 2];
    char said[96];

    memcpy(place, marked, sizeof place);
    memcpy(want, marked, sizeof want);
    if (refusal == KHZ_DONE)
        model_word(kind, v, want + 1);
    snprintf(said, sizeof said, "%s with %s: another answer", kinds[kind].name, what);
    expect(write_word(kind, v, place + 1, len) == refusal, said);
    snprintf(said, sizeof said, "%s with %s: other bytes", kinds[kind].name, what);
    expect(memcmp(place, want, sizeof place) == 0, said);
}

static void written_fields(void)
{
    for (int k = 0; k < KINDS; k++) {
        uint64_t v[MOST_FIELDS] = {0};
        char what[64];

        writes(k, v, KHZ_WORD_BYTES, KHZ_DONE, "all fields 0");
        for (int i = 0; i < kinds[k].fields; i++)
            v[i] = (UINT64_C(1) << width(k, i)) - 1;
        writes(k, v, KHZ_WORD_BYTES, KHZ_DONE, "each field at its width");
        for (size_t len = 0; len <= SPARE; len++)
            if (len != KHZ_WORD_BYTES)
                writes(k, v, len, KHZ_WRONG_LENGTH, "another length");
        for (int i = 0; i < kinds[k].fields; i++) {
            const uint64_t last = v[i], wide[] = {last + 1, last + 1 + (last >> 1), UINT64_C(1) << 32, UINT64_C(1) << 63, UINT64_MAX};
            /* each bit of the field, alone and beside all other fields at their width */
            for (int b = 0; b < width(k, i); b++) {
                uint64_t alone[MOST_FIELDS] = {0};
                alone[i] = v[i] = UINT64_C(1) << b;
                snprintf(what, sizeof what, "bit %d of field %d", b, i);
                writes(k, v, KHZ_WORD_BYTES, KHZ_DONE, what);
                writes(k, alone, KHZ_WORD_BYTES, KHZ_DONE, what);
            }
            v[i] = 0;
            writes(k, v, KHZ_WORD_BYTES, KHZ_DONE, "one field 0");
            for (size_t j = 0; j < sizeof wide / sizeof *wide; j++) {
                if (wide[j] <= last)
                    continue;
                v[i] = wide[j];
                snprintf(what, sizeof what, "field %d of %" PRIu64, i, wide[j]);
                writes(k, v, KHZ_WORD_BYTES, KHZ_WORD_FIELD, what);
                writes(k, v, 0, KHZ_WORD_FIELD, "8 and 1 at once");
                writes(k, v, SPARE, KHZ_WORD_FIELD, "8 and 1 at once");
            }
            v[i] = last;
        }
    }
}

/* Only the width counts: what the checker will complain of can be written. */
static void written_faults(void)
{
    uint64_t tdh[6] = {0, 0, 0, 0, 3564, 7};

    writes(TDH, tdh, KHZ_WORD_BYTES, KHZ_DONE, "nothing that triggered it, past the last crossing");
    tdh[4] = 4095;
    writes(TDH, tdh, KHZ_WORD_BYTES, KHZ_DONE, "crossing 4095");
    expect(khz_write_ihw(0, NULL, 0) == KHZ_WRONG_LENGTH, "an IHW without a place for it is not refused with 1");
}

static bool data_id(uint64_t id)
{
    return (id >= 0x20 && id <= 0x28) || (id >= 0x40 && id <= 0x46) || (id >= 0x48 && id <= 0x4E) || (id >= 0x50 && id <= 0x56) ||
           (id >= 0x58 && id <= 0x5E);
}

static void written_data(void)
{
    static const uint8_t nine[SPARE] = {0xFF, 1, 2, 0x80, 4, 5, 6, 0x7F, 0xFE, 0x11, 0x12, 0x13};
    static const uint64_t far[] = {0, 256, UINT64_C(1) << 32, UINT64_C(1) << 63};
    uint8_t place[SPARE];
    char what[64];

    for (size_t j = 0; j < sizeof far / sizeof *far; j++)
        for (uint64_t id = 0; id < 256; id++) {
            bool taken = data_id(id + far[j]);
            memcpy(place, marked, sizeof place);
            snprintf(what, sizeof what, "a data word of id %" PRIu64, id + far[j]);
            expect(khz_write_data(id + far[j], nine, KHZ_DATA_BYTES, place, KHZ_WORD_BYTES) == (taken ? KHZ_DONE : KHZ_WORD_FIELD), what);
            expect(taken ? memcmp(place, nine, 9) == 0 && place[9] == id && place[10] == marked[10] : memcmp(place, marked, sizeof place) == 0, what);
        }
    memcpy(place, marked, sizeof place);
    for (size_t len = 0; len <= SPARE; len++) {
        snprintf(what, sizeof what, "a data word of or for %zu bytes", len);
        if (len != KHZ_DATA_BYTES) {
            expect(khz_write_data(0x21, nine, len, place, KHZ_WORD_BYTES) == KHZ_WORD_FIELD, what);
            expect(khz_write_data(0x21, nine, len, place, len == KHZ_WORD_BYTES ? 9 : len) == KHZ_WORD_FIELD, "8 does not come before 1");
        }
        if (len != KHZ_WORD_BYTES) {
            expect(khz_write_data(0x21, nine, KHZ_DATA_BYTES, place, len) == KHZ_WRONG_LENGTH, what);
            expect(khz_write_data(0x29, nine, KHZ_DATA_BYTES, place, len) == KHZ_WORD_FIELD, "8 does not come before 1");
        }
    }
    expect(khz_write_data(0x21, NULL, 0, NULL, 0) == KHZ_WORD_FIELD, "a data word of nothing is not refused with 8");
    expect(memcmp(place, marked, sizeof place) == 0, "a refused data word is written");
}

/* Whether the worst lane of a word is the worst of its 28, which are read one by one, and each of these has its two bits. */
static bool lanes_agree(const uint8_t *word)
{
    khz_status_answer r = khz_worst_lane(word, KHZ_WORD_BYTES);
    uint64_t worst = KHZ_GOOD;

    for (uint64_t lane = 0; lane < KHZ_LANES; lane++) {
        khz_status_answer s = khz_lane_status(word, KHZ_WORD_BYTES, lane);
        if (s.refusal != KHZ_DONE || s.status != (word[lane / 4] >> lane % 4 * 2 & 3U))
            return false;
        if (s.status > worst)
            worst = s.status;
    }
    return r.refusal == KHZ_DONE && r.status == worst;
}

/* Each value of each byte of lanes, with all other lanes in each status; bits that are no lane's are clear, then set. */
static void worst_lane(void)
{
    uint8_t word[KHZ_WORD_BYTES];
    char wrong[80] = "";                             /* the last word that is answered wrongly */

    for (int rest = 0; rest <= 0xFF; rest += 0xFF)
        for (int others = KHZ_GOOD; others <= KHZ_FATAL; others++)
            for (int byte = 0; byte < KHZ_LANES / 4; byte++)
                for (int value = 0; value <= 0xFF; value++) {
                    memset(word, 0x55 * others, KHZ_LANES / 4);
                    memset(word + KHZ_LANES / 4, rest, KHZ_WORD_BYTES - KHZ_LANES / 4);
                    word[byte] = (uint8_t)value;
                    if (!lanes_agree(word))
                        snprintf(wrong, sizeof wrong, "worst lane: byte %d is %d, lanes of the others %d, the rest %d", byte, value, others, rest);
                }
    expect(!*wrong, wrong);
}

/* Each lane with each status, alone and beside a lane with another; bits that are no lane's are set throughout. */
static void lane_status(void)
{
    static const uint64_t none[] = {28, 29, 31, 32, 63, 255, 256, 257, UINT64_C(1) << 32, UINT64_C(1) << 63, UINT64_MAX};
    uint8_t word[SPARE] = {0};
    char wrong[64] = "";                             /* the last pair that is answered wrongly */

    for (uint64_t lane = 0; lane < KHZ_LANES; lane++)
        for (uint64_t other = 0; other < KHZ_LANES; other++)
            for (uint64_t pair = 0; pair < 16; pair++) {
                uint64_t a = pair % 4, b = other == lane ? a : pair / 4;
                khz_status_answer r, s;
                memset(word, 0, 7);
                memset(word + 7, 0xFF, 3);
                word[lane / 4] |= (uint8_t)(a << lane % 4 * 2);
                word[other / 4] |= (uint8_t)(b << other % 4 * 2);
                r = khz_worst_lane(word, KHZ_WORD_BYTES);
                s = khz_lane_status(word, KHZ_WORD_BYTES, lane);
                if (r.refusal != KHZ_DONE || r.status != (a > b ? a : b) || s.refusal != KHZ_DONE || s.status != a || !lanes_agree(word))
                    snprintf(wrong, sizeof wrong, "status %d of lane %d beside status %d of lane %d", (int)a, (int)lane, (int)b, (int)other);
            }
    expect(!*wrong, wrong);
    memset(word, 0xFF, sizeof word);
    for (size_t j = 0; j < sizeof none / sizeof *none; j++) {
        khz_status_answer s = khz_lane_status(word, KHZ_WORD_BYTES, none[j]);
        expect(s.refusal == KHZ_DONE && s.status == KHZ_GOOD, "a lane above 27 has a status");
    }
    for (size_t len = 0; len <= SPARE; len++)
        if (len != KHZ_WORD_BYTES) {
            khz_status_answer r = khz_worst_lane(word, len), s = khz_lane_status(word, len, 0);
            expect(r.refusal == KHZ_WRONG_LENGTH && r.status == 0 && s.refusal == KHZ_WRONG_LENGTH && s.status == 0, "lane status of another length");
        }
    word[0] = 0x0E;
    memset(word + 1, 0, 9);
    expect(khz_worst_lane(word, KHZ_WORD_BYTES).status == KHZ_FATAL, "0x0E is not fatal");
    word[0] = 0x06;
    expect(khz_worst_lane(word, KHZ_WORD_BYTES).status == KHZ_ERROR, "0x06 is not error");
}

/* A word of five bytes, the others 0, with room for its records. */
static khz_word_answer say(uint64_t *t, uint8_t b0, uint8_t b1, uint8_t b2, uint8_t b8, uint8_t id)
{
    uint64_t records[KHZ_RECORDS_PER_WORD * KHZ_RECORD_NUMBERS];
    uint8_t w[KHZ_WORD_BYTES] = {b0, b1, b2, 0, 0, 0, 0, 0, b8, id};

    return khz_word(t, KHZ_TRACKER_WORDS, w, sizeof w, records, sizeof records / sizeof *records);
}

/* A past: a packet, the first words of a run, and words that are a marker, or less than one. After none to all of its words the run has led to IHW_,
 * TDH_, DATA_, DATA_, c_IHW_, c_TDH_, c_DATA_ and THREE: to every state. The packet's numbers, byte 0 of every word and the crossing of a TDH are the
 * tracker's own. */
enum { RUN = 7 };
enum { THREE_DATA, SHORT_FRAME, MARKERS, TWO_DATA = MARKERS, TDH_WITHOUT_DATA, TDT_NOT_DONE };
static void past_of(uint64_t *t, int words, int ends_in, uint8_t own)
{
    static const uint8_t run[RUN][2] = {{0xE0}, {0xE8}, {0x20}, {0xF0}, {0xE0}, {0xE8}, {0xF0, 1}}; /* id, byte 8: packet done */
    static const struct {
        int words;
        uint8_t word[4][3]; /* id, byte 8, byte 1: bit 13 */
    } ends[] = {
        [THREE_DATA] = {4, {{0x20}, {0x20}, {0x20}, {0xF0, 1}}},
        [SHORT_FRAME] = {3, {{0xE8}, {0x20}, {0xF0, 1}}},
        [TWO_DATA] = {3, {{0x20}, {0x20}, {0xF0, 1}}},
        [TDH_WITHOUT_DATA] = {3, {{0xE8, 0, 0x20}, {0x20}, {0xF0, 1}}},
        [TDT_NOT_DONE] = {3, {{0xE8}, {0x20}, {0xF0}}},
    };

    expect(khz_start(t, KHZ_TRACKER_WORDS, 1, 1, 1, 198, KHZ_RULE_1) == KHZ_DONE, "khz_start is refused");
    expect(khz_packet(t, KHZ_TRACKER_WORDS, own, own, own, own, 0, 0, 2) == KHZ_DONE, "a packet is refused");
    for (int i = 0; i < words; i++)
        expect(say(t, own, 0x10, own, run[i][1], run[i][0]).refusal == KHZ_DONE, "a word of a past is refused");
    for (int i = 0; i < ends[ends_in].words; i++) {
        const uint8_t *w = ends[ends_in].word[i];
        expect(say(t, own, w[2], own, w[1], w[0]).refusal == KHZ_DONE, "the last word of a past is refused");
    }
}

/* Whether id 0x47 in the data section gives two trackers the same four records, 991, 70, 1074 and 1073, but for the packet, which is each one's own. */
static bool same_but_for_packet(uint64_t *t, uint64_t packet1, uint64_t *u, uint64_t packet2)
{
    static const uint8_t w[KHZ_WORD_BYTES] = {[9] = 0x47};
    uint64_t r[KHZ_RECORDS_PER_WORD * KHZ_RECORD_NUMBERS], s[KHZ_RECORDS_PER_WORD * KHZ_RECORD_NUMBERS];
    const size_t room = sizeof r / sizeof *r;
    khz_word_answer a = khz_word(t, KHZ_TRACKER_WORDS, w, sizeof w, r, room), b = khz_word(u, KHZ_TRACKER_WORDS, w, sizeof w, s, room);
    bool same = a.refusal == KHZ_DONE && b.refusal == KHZ_DONE && a.records == 4 && b.records == 4;

    for (size_t i = 0; same && i < 4 * KHZ_RECORD_NUMBERS; i++)
        same = i % KHZ_RECORD_NUMBERS == 4 ? r[i] == packet1 && s[i] == packet2 : r[i] == s[i];
    return same;
}

/* Whether two trackers with pasts of their own agree from an accepted packet on: in the kinds at once, and in all their numbers once an IHW, an internal
 * TDH and a CDW were met, but for the count where the second has accepted more packets. */
static bool in_step(int words1, int ends1, int words2, int ends2, uint64_t more)
{
    static const uint8_t calls[3][2] = {{0xE0}, {0xE8, 0x10}, {0xF8}}; /* id, byte 1: internal trigger */
    uint64_t t[KHZ_TRACKER_WORDS], u[KHZ_TRACKER_WORDS];
    bool agree = true;

    past_of(t, words1, ends1, 1);
    past_of(u, words2, ends2, 2);
    for (uint64_t i = 0; i < more; i++)
        expect(khz_packet(u, KHZ_TRACKER_WORDS, i, 0, 0, 0, 0, 0, 2) == KHZ_DONE, "a packet is refused");
    expect(khz_packet(t, KHZ_TRACKER_WORDS, 64, 0, 0, 0, 0, 0, 2) == KHZ_DONE, "a packet is refused");
    expect(khz_packet(u, KHZ_TRACKER_WORDS, 64, 0, 0, 0, 0, 0, 2) == KHZ_DONE, "a packet is refused");
    expect(memcmp(t, u, sizeof t) != 0, "two pasts leave the same tracker");
    for (int i = 0; i < 3; i++) {
        khz_word_answer a = say(t, 0, calls[i][1], 0, 0, calls[i][0]), b = say(u, 0, calls[i][1], 0, 0, calls[i][0]);
        agree = agree && a.refusal == b.refusal && a.kind == b.kind && a.guessed == b.guessed;
    }
    u[place_of_count] -= more;
    agree = agree && memcmp(t, u, sizeof t) == 0;
    u[place_of_count] += more;
    if (agree)
        expect(same_but_for_packet(t, 2, u, 2 + more), "the records of two trackers in step differ in more than the packet");
    return agree;
}

/* Promise 3: after a marker each, from any two states; and what is less than a marker does not do it. */
static void back_in_step(void)
{
    for (int words1 = 0; words1 <= RUN; words1++)
        for (int words2 = 0; words2 <= RUN; words2++)
            for (int ends1 = 0; ends1 < MARKERS; ends1++)
                for (int ends2 = 0; ends2 < MARKERS; ends2++) {
                    expect(in_step(words1, ends1, words2, ends2, 0), "two trackers are out of step after a marker each");
                    expect(in_step(words1, ends1, words2, ends2, 3), "two trackers with unequal counts are out of step after a marker each");
                }
    expect(!in_step(RUN, TWO_DATA, 0, SHORT_FRAME, 0), "from THREE two data words and a TDT are as good as a marker");
    expect(!in_step(RUN, TDH_WITHOUT_DATA, 0, SHORT_FRAME, 0), "from THREE a short frame whose TDH has bit 13 set is as good as a marker");
    expect(!in_step(0, TDT_NOT_DONE, 0, SHORT_FRAME, 0), "a short frame without packet done is as good as a marker");
}

/* Ways to an IHW: the words before it and a reset, and what it then comes in: the start state, the three-way state, or a continuation. */
enum { START, THREE_WAY, CONTINUED };
static const struct {
    int words;
    uint8_t word[3][3]; /* id, byte 8: packet done, byte 1: bit 13 */
    bool reset;
    int comes_in;
} ways[] = {
    {0, {{0}}, false, START},
    {3, {{0xE0}, {0xE8, 0, 0x20}, {0xE4}}, false, START},
    {3, {{0xE0}, {0xE8, 0, 0x20}, {0x20}}, false, START}, /* an id that is unknown there, 992 */
    {2, {{0xE0}, {0xE8, 0, 0x20}}, true, START},
    {3, {{0xE0}, {0xE8}, {0xF0}}, true, START},
    {2, {{0xE0}, {0xE8, 0, 0x20}}, false, THREE_WAY},
    {3, {{0xE0}, {0xE8}, {0xF0, 1}}, false, THREE_WAY},
    {3, {{0xE0}, {0xE8}, {0xF0}}, false, CONTINUED},
};

/* The records of an IHW behind such words, in a packet of its own at position 0, the second: 1120, then 1121 in the start state or 1122 in the three-way
 * state. */
static void ihw_at_page(size_t way, uint64_t page, uint64_t stop, bool running)
{
    uint64_t t[KHZ_TRACKER_WORDS], records[KHZ_RECORDS_PER_WORD * KHZ_RECORD_NUMBERS], said[3 * KHZ_RECORD_NUMBERS];
    static const uint8_t ihw[KHZ_WORD_BYTES] = {[9] = 0xE0};
    int comes_in = ways[way].comes_in;
    bool asked = running && comes_in != CONTINUED;
    khz_word_answer a;
    size_t n = 0;

    expect(khz_start(t, KHZ_TRACKER_WORDS, running, 1, 0, 0, KHZ_RULE_1) == KHZ_DONE, "khz_start is refused");
    expect(khz_packet(t, KHZ_TRACKER_WORDS, 1000, 0, 0, 0, 0, 0, 2) == KHZ_DONE, "a packet is refused");
    for (int i = 0; i < ways[way].words; i++) {
        const uint8_t *w = ways[way].word[i];
        expect(say(t, 1, w[2], 0, w[1], w[0]).refusal == KHZ_DONE, "a word before an IHW is refused");
    }
    if (ways[way].reset)
        expect(khz_reset(t, KHZ_TRACKER_WORDS) == KHZ_DONE, "khz_reset is refused");
    expect(khz_packet(t, KHZ_TRACKER_WORDS, 0, 0, 0, 0, page, stop, 2) == KHZ_DONE, "a packet is refused");
    const uint64_t rows[3][2] = {{KHZ_CODE_IHW_STOP, stop}, {KHZ_CODE_IHW_PAGE, page}, {KHZ_CODE_IHW_LATER_PAGE, 0}};
    const bool given[3] = {asked && stop != 0, asked && comes_in == START && page != 0, asked && comes_in == THREE_WAY && page == 0};
    for (int i = 0; i < 3; i++)
        if (given[i]) {
            const uint64_t record[KHZ_RECORD_NUMBERS] = {64, rows[i][0], rows[i][1], 0, 2};
            memcpy(said + n++ * KHZ_RECORD_NUMBERS, record, sizeof record);
        }
    a = khz_word(t, KHZ_TRACKER_WORDS, ihw, sizeof ihw, records, sizeof records / sizeof *records);
    expect(a.kind == (comes_in == CONTINUED ? KHZ_IHW_CONTINUATION : KHZ_IHW), "a word is no IHW where one comes");
    expect(a.records == n && memcmp(records, said, n * sizeof *said * KHZ_RECORD_NUMBERS) == 0, "an IHW gives other records than its state, page and stop say");
}

/* Two orbits, each of 65,535 pages with a trigger on each and a page with a DDW0, so that every page number comes up: no record at all. */
static void long_run(void)
{
    static const uint8_t ddw0[KHZ_WORD_BYTES] = {[9] = 0xE4};
    uint8_t words[4][KHZ_WORD_BYTES] = {{1, [9] = 0xE0}, {0x10, 0x10, [9] = 0xE8}, {[9] = 0x20}, {[8] = 1, 0xF0}}; /* IHW, internal TDH, data, TDT */
    uint64_t t[KHZ_TRACKER_WORDS], records[4 * KHZ_RECORDS_PER_WORD * KHZ_RECORD_NUMBERS], triggers = 0, position = 0, given = 0, taken = 0;
    uint64_t refused = khz_start(t, KHZ_TRACKER_WORDS, 1, 1, 1, 198, KHZ_RULE_1);

    for (uint64_t orbit = 0; orbit < 2; orbit++)
        for (uint64_t page = 0; page < 65536; page++, position += 128) {
            bool last = page == 65535;
            uint64_t bc = triggers % 18 * 198;
            khz_payload_answer a;
            triggers += !last;
            put(words[1] + 2, bc, 2);
            put(words[1] + 4, orbit, 4);
            refused |= khz_packet(t, KHZ_TRACKER_WORDS, position, orbit, 0x10, bc, page, last, 2);
            a = khz_payload(t, KHZ_TRACKER_WORDS, last ? ddw0 : words[0], last ? sizeof ddw0 : sizeof words, records, sizeof records / sizeof *records);
            refused |= a.refusal;
            given += a.records;
            taken += a.words;
        }
    expect(refused == 0 && taken == 2 * (4 * 65535 + 1), "a call of a long run is refused");
    expect(given == 0, "a long clean run gives a record");
}

static void pages(void)
{
    static const uint64_t page[] = {0, 1, 2, 65535}, stop[] = {0, 1, 2, 255};

    for (size_t way = 0; way < sizeof ways / sizeof *ways; way++)
        for (size_t p = 0; p < sizeof page / sizeof *page; p++)
            for (size_t s = 0; s < sizeof stop / sizeof *stop; s++)
                for (int running = 0; running < 2; running++)
                    ihw_at_page(way, page[p], stop[s], running);
    long_run();
}

/* The records that 01 and 02 give of a word in the data section at position 84 of a packet, by its id, the active lanes and whether running checks are on:
 * how many. */
static size_t said_of_id(unsigned id, uint64_t active, bool running, uint64_t packet, uint64_t said[][KHZ_RECORD_NUMBERS])
{
    static const uint64_t outer_none[4] = {78, 93, 108, 28}; /* ids 0x47, 0x4F, 0x57, 0x5F */
    bool inner = id >> 5 == 1, outer = id >> 5 == 2, none = inner ? id > 0x28 : id % 8 == 7;
    uint64_t lane = inner ? id - 0x20 : none ? outer_none[id / 8 % 4] : (id - 0x40) / 8 * 7 + id % 8;
    bool data = (inner || outer) && !none, on = data && (active >> lane & 1);
    size_t n = 0;

    if (!data) {
        const uint64_t unknown[2][KHZ_RECORD_NUMBERS] = {{84, KHZ_CODE_UNKNOWN_IN_DATA, id, 0, packet}, {84, KHZ_CODE_NO_DATA_ID, id, 0, packet}};
        memcpy(said, unknown, sizeof unknown);
        n = 2;
    }
    if (running && (inner || outer) && !on) {
        const uint64_t code = none ? KHZ_CODE_NO_SUCH_LANE : inner ? KHZ_CODE_INNER_LANE : KHZ_CODE_OUTER_LANE;
        const uint64_t record[KHZ_RECORD_NUMBERS] = {84, code, lane, active, packet};
        memcpy(said[n++], record, sizeof record);
    }
    if (running && outer && none) {
        const uint64_t record[KHZ_RECORD_NUMBERS] = {84, KHZ_CODE_INPUT, 7, 0, packet};
        memcpy(said[n++], record, sizeof record);
    }
    return n;
}

/* Whether each id but those of a TDT and a CDW gives its records behind an IHW with these lanes and a TDH, in DATA_ or in c_DATA_, by a word call and by a
 * payload call. */
static bool ids_agree(uint64_t active, bool running, bool continued)
{
    static const uint8_t tdh[KHZ_WORD_BYTES] = {1, [9] = 0xE8}, tdt[KHZ_WORD_BYTES] = {[9] = 0xF0};
    uint8_t ihw[KHZ_WORD_BYTES] = {[9] = 0xE0}, w[KHZ_WORD_BYTES] = {0};
    uint64_t begun[KHZ_TRACKER_WORDS], records[KHZ_RECORDS_PER_WORD * KHZ_RECORD_NUMBERS], said[KHZ_RECORDS_PER_WORD][KHZ_RECORD_NUMBERS];
    const size_t room = sizeof records / sizeof *records;
    bool agree = khz_start(begun, KHZ_TRACKER_WORDS, running, 0, 0, 0, KHZ_RULE_1) == KHZ_DONE;

    put(ihw, active, 4);
    for (int page = 0; page <= continued; page++) {
        agree = agree && khz_packet(begun, KHZ_TRACKER_WORDS, 0, 0, 0, 0, 0, 0, 2) == KHZ_DONE;
        agree = agree && khz_word(begun, KHZ_TRACKER_WORDS, ihw, sizeof ihw, records, room).refusal == KHZ_DONE;
        agree = agree && khz_word(begun, KHZ_TRACKER_WORDS, tdh, sizeof tdh, records, room).refusal == KHZ_DONE;
        if (page < continued)
            agree = agree && khz_word(begun, KHZ_TRACKER_WORDS, tdt, sizeof tdt, records, room).kind == KHZ_TDT;
    }
    for (unsigned id = 0; id < 256; id++) {
        uint64_t t[KHZ_TRACKER_WORDS], u[KHZ_TRACKER_WORDS];
        size_t n = said_of_id(id, active, running, continued ? 2 : 1, said);
        khz_word_answer a;
        khz_payload_answer b;
        if (id == 0xF0 || id == 0xF8)
            continue;
        w[9] = (uint8_t)id;
        memcpy(t, begun, sizeof t);
        memcpy(u, begun, sizeof u);
        a = khz_word(t, KHZ_TRACKER_WORDS, w, sizeof w, records, room);
        agree = agree && a.refusal == KHZ_DONE && a.kind == KHZ_DATA_WORD && a.records == n && memcmp(records, said, n * sizeof *said) == 0;
        b = khz_payload(u, KHZ_TRACKER_WORDS, w, sizeof w, records, room);
        agree = agree && b.refusal == KHZ_DONE && b.words == 1 && b.records == n && memcmp(records, said, n * sizeof *said) == 0;
        agree = agree && memcmp(t, u, sizeof t) == 0;
    }
    return agree;
}

/* With no lane active, with all, with each alone, and with each but one. */
static void lanes_that_can_not_be(void)
{
    const uint64_t all = (UINT64_C(1) << KHZ_LANES) - 1;

    for (int running = 0; running < 2; running++)
        for (int continued = 0; continued < 2; continued++) {
            expect(ids_agree(0, running, continued), "with no lane active an id gives other records than it should");
            expect(ids_agree(all, running, continued), "with all lanes active an id gives other records than it should");
            for (int lane = 0; lane < KHZ_LANES; lane++) {
                uint64_t one = UINT64_C(1) << lane;
                expect(ids_agree(one, running, continued), "with one lane active an id gives other records than it should");
                expect(ids_agree(all - one, running, continued), "with all lanes but one active an id gives other records than it should");
            }
        }
}

/* Two internal TDHs with no data, of 01's and 02's numbers: where each is, and what stands between them. */
enum between { NOTHING, ANOTHER_TDH, A_RESET, BETWEENS };
typedef struct {
    uint64_t orbit, bc;
} crossing;

/* Time from one crossing to another, in crossings: the later orbit is the one that is less than half a turn of the orbit number away. */
static int64_t time_from(crossing a, crossing b)
{
    uint64_t orbits = (b.orbit + (UINT64_C(1) << 32) - a.orbit) % (UINT64_C(1) << 32);
    int64_t on = (int64_t)orbits - (orbits < UINT64_C(1) << 31 ? 0 : INT64_C(1) << 32);
    return on * (KHZ_LAST_CROSSING + 1) + (int64_t)b.bc - (int64_t)a.bc;
}

/* The record of the interval, without its position; none has code 0. */
static void said_of_interval(uint64_t rule, uint64_t set, crossing a, crossing b, uint64_t said[3])
{
    const int64_t orbit = KHZ_LAST_CROSSING + 1, time = rule == KHZ_RULE_2 ? time_from(a, b) : ((int64_t)b.bc - (int64_t)a.bc + orbit) % orbit;
    bool legal = a.bc <= KHZ_LAST_CROSSING && b.bc <= KHZ_LAST_CROSSING;

    said[0] = !legal ? KHZ_CODE_PAST_LAST_CROSSING : time < 0 ? KHZ_CODE_TIME_RAN_BACK : (uint64_t)time != set ? KHZ_CODE_PERIOD : 0;
    said[1] = said[0] == KHZ_CODE_PERIOD ? (uint64_t)time : a.bc;
    said[2] = said[0] == KHZ_CODE_PERIOD ? set : b.bc;
}

static void put_tdh(uint8_t *w, crossing at, bool internal)
{
    static const uint8_t plain[KHZ_WORD_BYTES] = {1, 0x20, [9] = 0xE8};
    memcpy(w, plain, sizeof plain);
    w[1] |= internal ? 0x10 : 0;
    put(w + 2, at.bc, 2);
    put(w + 4, at.orbit, 4);
}

/* Whether the second gives the records that it should and no other word gives one. */
static bool interval_agrees(uint64_t rule, uint64_t set, crossing a, crossing b, int between, bool running, bool periodic)
{
    uint64_t t[KHZ_TRACKER_WORDS], records[4 * KHZ_RECORDS_PER_WORD * KHZ_RECORD_NUMBERS], want[2][KHZ_RECORD_NUMBERS], said[3];
    uint8_t words[4 * KHZ_WORD_BYTES] = {[9] = 0xE0};
    const size_t room = sizeof records / sizeof *records;
    const uint64_t packet = between == A_RESET ? 2 : 1;
    size_t n = 2, wanted = 0;
    khz_payload_answer p;
    uint64_t refused = khz_start(t, KHZ_TRACKER_WORDS, running, 1, periodic, set, rule);

    refused |= khz_packet(t, KHZ_TRACKER_WORDS, 0, a.orbit, 1, a.bc, 0, 0, 2);
    put_tdh(words + 10, a, true);
    if (between == ANOTHER_TDH)
        put_tdh(words + 10 * n++, (crossing){a.orbit ^ 0x55555555, a.bc}, false);
    if (between == A_RESET) {
        p = khz_payload(t, KHZ_TRACKER_WORDS, words, 10 * n, records, room);
        refused |= p.refusal | p.records | khz_reset(t, KHZ_TRACKER_WORDS) | khz_packet(t, KHZ_TRACKER_WORDS, 0, b.orbit, 1, b.bc, 0, 0, 2);
        n = 1;
    }
    put_tdh(words + 10 * n++, b, true);
    p = khz_payload(t, KHZ_TRACKER_WORDS, words, 10 * n, records, room);
    if (running && between != A_RESET && b.bc < a.bc) {
        const uint64_t record[KHZ_RECORD_NUMBERS] = {54 + 10 * n, KHZ_CODE_EARLIER_CROSSING, a.bc, b.bc, packet};
        memcpy(want[wanted++], record, sizeof record);
    }
    said_of_interval(rule, set, a, b, said);
    if (running && periodic && said[0] != 0) {
        const uint64_t record[KHZ_RECORD_NUMBERS] = {54 + 10 * n, said[0], said[1], said[2], packet};
        memcpy(want[wanted++], record, sizeof record);
    }
    return refused == 0 && p.refusal == KHZ_DONE && p.words == n && p.records == wanted && memcmp(records, want, wanted * sizeof *want) == 0;
}

/* Every pair of some crossings, so many orbits from one to the other, by a rule: with periods about the orbit's length, the largest one, and the very
 * time between them; also without running checks and without a period. */
static bool intervals_agree(uint64_t rule, uint64_t orbit, uint64_t orbits, int between)
{
    static const uint64_t bc[] = {0, 1, 5, 198, 1587, 3562, 3563, 3564, 4095}, periods[] = {0, 198, 3563, 3564, 10692, KHZ_PERIOD_MAX};
    bool agree = true;

    for (size_t i = 0; i < sizeof bc / sizeof *bc; i++)
        for (size_t k = 0; k < sizeof bc / sizeof *bc; k++) {
            crossing a = {orbit, bc[i]}, b = {(orbit + orbits) % (UINT64_C(1) << 32), bc[k]};
            int64_t time = time_from(a, b);
            for (size_t n = 0; n < sizeof periods / sizeof *periods; n++)
                agree = interval_agrees(rule, periods[n], a, b, between, true, true) && agree;
            if (time >= 0 && (uint64_t)time <= KHZ_PERIOD_MAX)
                agree = interval_agrees(rule, (uint64_t)time, a, b, between, true, true) && agree;
            agree = interval_agrees(rule, 198, a, b, between, false, true) && agree;
            agree = interval_agrees(rule, 198, a, b, between, true, false) && agree;
        }
    return agree;
}

static void periods(void)
{
    static const uint64_t first[] = {0, 5, 2147483647, 2147483648, 4294967294, 4294967295},
                          on[] = {0, 1, 2, 3, 1205097, 2147483646, 2147483647, 2147483648, 2147483649, 4294967293, 4294967294, 4294967295};

    for (uint64_t rule = KHZ_RULE_1; rule <= KHZ_RULE_2; rule++)
        for (size_t i = 0; i < sizeof first / sizeof *first; i++)
            for (size_t k = 0; k < sizeof on / sizeof *on; k++)
                for (int between = NOTHING; between < BETWEENS; between++)
                    expect(intervals_agree(rule, first[i], on[k], between), "an interval gives other records than it should");
}

int main(void)
{
    for (uint64_t rule = KHZ_RULE_1; rule <= KHZ_RULE_2; rule++) {
        case_by_words(rule);
        case_by_payload(rule);
    }
    rooms();
    find_count();
    count_of_packets();
    last_packet();
    counts_that_can_not_be();
    packet_ranges();
    setting_ranges();
    settings_apart();
    lengths();
    versions();
    files();
    written_fields();
    written_faults();
    written_data();
    lane_status();
    worst_lane();
    back_in_step();
    pages();
    lanes_that_can_not_be();
    periods();
    printf("boundary: %u checks, %u failed\n", checks, failed);
    return failed ? 1 : 0;
}
