/* khz_driver.c: reads calls as lines, makes them through khandzorul.h, prints the answers as the Rust driver does.
 *
 *     S running frames period|-                              a new tracker
 *     P position orbit trigger bc page stop format           a packet
 *     W hex                                                  a word:    kind guessed frame ; position code first second ; ...
 *     R                                                      reset
 *     Y hex                                                  a payload: Y refusal words records ; position code first second ; ...
 *
 * A frame is `-`, `O` or `C:start:end`. A refused call prints `REFUSED number`; the Rust has no such answer. A word may have any length from one byte on.
 * The fifth number of a record, which the Rust has not, is not printed: each record must have the count of packets that were accepted since the start,
 * which is kept here.
 *
 * With -c it also checks, at every call, what the header promises and the Rust can't say: that refusals come when and in the order that
 * they should and leave tracker and records bit for bit, that nothing behind the records is touched, that the answer's numbers are in
 * range, that an array that holds no tracker gets 100, that payload calls over the same words (whole, cut in two, with too little
 * room) give the same records, counts and tracker, and that the count of packets stops at its last.
 * A broken promise is told on standard error, and the exit status is 1.
 *
 * Linked with the archive, or with plain.c: then compile with -DPLAIN.
 */
#include "khandzorul.h"
#ifdef PLAIN
#include "plain.h"
#define khz_start plain_start
#define khz_packet plain_packet
#define khz_word plain_word
#define khz_payload plain_payload
#define khz_reset plain_reset
#endif

#include <inttypes.h>
#include <stdbool.h>
#include <stdio.h>
#include <stdlib.h>
#include <string.h>

enum {
    BUFFER_RECORDS = KHZ_PACKET_WORDS * KHZ_RECORDS_PER_WORD,
    BUFFER = BUFFER_RECORDS * KHZ_RECORD_NUMBERS,
    WORD_BUFFER = KHZ_RECORDS_PER_WORD * KHZ_RECORD_NUMBERS,
    GUARD = 8,                                       /* numbers behind a buffer that no call may touch */
    LINE = 32 + 2 * KHZ_WORD_BYTES * (KHZ_PACKET_WORDS + 2)
};
#define PATTERN UINT64_C(0xA5A55A5AC3C33C3C)

typedef struct {
    uint64_t n[KHZ_TRACKER_WORDS + 1];               /* one more, so that a length of one too many is still inside */
} tracker_array;

static tracker_array tracker;
static bool started, checking;
static uint64_t line_number, broken;

/* The words since the last packet, reset or payload call: what a payload call is tried on. */
static struct {
    tracker_array before, after[KHZ_PACKET_WORDS];   /* the tracker before the first and after each of them */
    uint8_t bytes[KHZ_WORD_BYTES * (KHZ_PACKET_WORDS + 1)];
    uint64_t records[BUFFER];                        /* what word calls gave for them */
    uint64_t upto[KHZ_PACKET_WORDS + 1];             /* how many records the first i words gave */
    size_t words;
} stretch;
static uint64_t packets;                             /* accepted since the start: our own count */
static size_t taken;                                 /* words in this packet: our own count */

static void tell(const char *what)
{
    if (broken++ < 20)
        fprintf(stderr, "khz_driver: line %" PRIu64 ": %s\n", line_number, what);
}

static void demand(bool holds, const char *what)
{
    if (!holds)
        tell(what);
}

static void fill(uint64_t *b, size_t n)
{
    for (size_t i = 0; i < n; i++)
        b[i] = PATTERN;
}

static bool untouched(const uint64_t *b, size_t from, size_t to)
{
    for (size_t i = from; i < to; i++)
        if (b[i] != PATTERN)
            return false;
    return true;
}

static bool same_tracker(const tracker_array *a, const tracker_array *b)
{
    return memcmp(a, b, sizeof *a) == 0;
}

static bool same_numbers(const uint64_t *a, const uint64_t *b, size_t n)
{
    return n == 0 || memcmp(a, b, n * sizeof *a) == 0;
}

static bool is_word(khz_word_answer a, khz_word_answer b)
{
    return a.refusal == b.refusal && a.kind == b.kind && a.guessed == b.guessed && a.records == b.records && a.frame == b.frame
        && a.frame_start == b.frame_start && a.frame_end == b.frame_end && a.lanes == b.lanes;
}

static bool refused_word(khz_word_answer a, uint64_t number)
{
    khz_word_answer zeros = {0, 0, 0, 0, 0, 0, 0, 0};
    zeros.refusal = number;
    return is_word(a, zeros);
}

static bool is_payload(khz_payload_answer a, uint64_t refusal, uint64_t words, uint64_t records)
{
    return a.refusal == refusal && a.words == words && a.records == records;
}

/* A word call that must be refused with `number`, on a copy, which must stay as it is. */
static void must_refuse_word(const tracker_array *t, size_t tracker_len, const uint8_t *w, size_t word_len, size_t records_len, uint64_t number, const char *what)
{
    static uint64_t b[WORD_BUFFER + GUARD];
    tracker_array copy = *t;

    fill(b, WORD_BUFFER + GUARD);
    demand(refused_word(khz_word(copy.n, tracker_len, w, word_len, records_len ? b : NULL, records_len), number), what);
    demand(same_tracker(&copy, t), "a refused word changed the tracker");
    demand(untouched(b, 0, WORD_BUFFER + GUARD), "a refused word wrote records");
}

/* The same of a payload call. */
static void must_refuse_payload(const tracker_array *t, size_t tracker_len, const uint8_t *p, size_t payload_len, size_t records_len, uint64_t number, const char *what)
{
    static uint64_t b[WORD_BUFFER + GUARD];
    tracker_array copy = *t;

    fill(b, WORD_BUFFER + GUARD);
    demand(is_payload(khz_payload(copy.n, tracker_len, p, payload_len, records_len ? b : NULL, records_len), number, 0, 0), what);
    demand(same_tracker(&copy, t), "a refused payload that took no word changed the tracker");
    demand(untouched(b, 0, WORD_BUFFER + GUARD), "a refused payload that took no word wrote records");
}

/* Refusals that don't depend on what the word is. `full`: this word must be refused with 3; `ready`: a packet was accepted. */
static void check_refusals(const uint8_t *w, bool ready, bool full)
{
    uint8_t longer[2 * KHZ_WORD_BYTES] = {0};

    memcpy(longer, w, KHZ_WORD_BYTES);
    must_refuse_word(&tracker, KHZ_TRACKER_WORDS - 1, longer, 10, WORD_BUFFER, 100, "a short tracker array is not refused with 100");
    must_refuse_word(&tracker, KHZ_TRACKER_WORDS + 1, longer, 9, WORD_BUFFER, 100, "a long tracker array is not refused with 100 before 1");
    must_refuse_word(&tracker, KHZ_TRACKER_WORDS, longer, 9, WORD_BUFFER, 1, "a word of 9 bytes is not refused with 1");
    must_refuse_word(&tracker, KHZ_TRACKER_WORDS, longer, 11, 0, 1, "a word of 11 bytes is not refused with 1");
    must_refuse_word(&tracker, KHZ_TRACKER_WORDS, longer, 20, 0, 1, "a word of 20 bytes is not refused with 1");
    must_refuse_word(&tracker, KHZ_TRACKER_WORDS, NULL, 0, 0, 1, "a word of no bytes is not refused with 1");
    must_refuse_payload(&tracker, KHZ_TRACKER_WORDS + 1, longer, 9, WORD_BUFFER, 100, "a payload on a long tracker array is not refused with 100");
    must_refuse_payload(&tracker, KHZ_TRACKER_WORDS, longer, 9, WORD_BUFFER, 1, "a payload of 9 bytes is not refused with 1");
    must_refuse_payload(&tracker, KHZ_TRACKER_WORDS, longer, 12, WORD_BUFFER, 1, "a payload of 12 bytes is not refused with 1");
    must_refuse_payload(&tracker, KHZ_TRACKER_WORDS, longer, 15, WORD_BUFFER, 1, "a payload of 15 bytes is not refused with 1");
    must_refuse_payload(&tracker, KHZ_TRACKER_WORDS, longer, 19, WORD_BUFFER, 1, "a payload of 19 bytes is not refused with 1");
    if (!ready) {
        must_refuse_word(&tracker, KHZ_TRACKER_WORDS, w, 10, WORD_BUFFER, 2, "a word before a packet is not refused with 2");
        must_refuse_word(&tracker, KHZ_TRACKER_WORDS, w, 10, 0, 2, "a word before a packet and without room is not refused with 2");
        must_refuse_payload(&tracker, KHZ_TRACKER_WORDS, w, 10, WORD_BUFFER, 2, "a payload before a packet is not refused with 2");
        must_refuse_payload(&tracker, KHZ_TRACKER_WORDS, NULL, 0, 0, 2, "an empty payload before a packet is not refused with 2");
    } else {
        tracker_array copy = tracker;
        demand(is_payload(khz_payload(copy.n, KHZ_TRACKER_WORDS, NULL, 0, NULL, 0), 0, 0, 0), "an empty payload is refused after a packet");
        demand(same_tracker(&copy, &tracker), "an empty payload changed the tracker");
    }
    if (full) {
        must_refuse_word(&tracker, KHZ_TRACKER_WORDS, w, 10, WORD_BUFFER, 3, "a word in a full packet is not refused with 3");
        must_refuse_word(&tracker, KHZ_TRACKER_WORDS, w, 10, 0, 3, "a word in a full packet and without room is not refused with 3");
        must_refuse_payload(&tracker, KHZ_TRACKER_WORDS, w, 10, WORD_BUFFER, 3, "a payload in a full packet is not refused with 3");
    }
}

static unsigned lanes_on(const uint8_t *w)
{
    unsigned n = 0;
    for (unsigned i = 0; i < 28; i++)
        n += w[i / 8] >> i % 8 & 1;
    return n;
}

/* What any accepted word's answer must keep to. */
static void check_answer(const uint8_t *w, khz_word_answer a)
{
    demand(a.kind >= KHZ_IHW && a.kind <= KHZ_DDW0, "a kind outside 1 to 9");
    demand(a.guessed <= 1, "guessed is neither 0 nor 1");
    demand(a.records <= KHZ_RECORDS_PER_WORD, "more than six records");
    demand(a.frame <= KHZ_FRAME_CLOSED, "a frame outside 0 to 2");
    demand(a.frame == KHZ_FRAME_CLOSED || (a.frame_start == 0 && a.frame_end == 0), "a start or end without a closed frame");
    demand(a.lanes == (a.kind == KHZ_IHW || a.kind == KHZ_IHW_CONTINUATION ? lanes_on(w) : 0), "lanes is not what the IHW switches on");
}

/* The same word again on copies of the tracker before it: room to spare, just enough, one number too few; as a payload of one word. */
static void check_word_again(const tracker_array *before, const uint8_t *w, khz_word_answer a, const uint64_t *records)
{
    static uint64_t b[WORD_BUFFER + GUARD];
    size_t n = (size_t)a.records, numbers = n * KHZ_RECORD_NUMBERS;

    for (size_t spare = 0; spare < KHZ_RECORD_NUMBERS; spare += KHZ_RECORD_NUMBERS - 1) {
        size_t len = numbers + spare;
        tracker_array copy = *before;
        fill(b, WORD_BUFFER + GUARD);
        demand(is_word(khz_word(copy.n, KHZ_TRACKER_WORDS, w, 10, len ? b : NULL, len), a), "the answer depends on room that is not needed");
        demand(same_tracker(&copy, &tracker), "the tracker depends on room that is not needed");
        demand(same_numbers(b, records, numbers) && untouched(b, numbers, WORD_BUFFER + GUARD), "the records depend on room that is not needed");
    }
    if (n > 0) {
        must_refuse_word(before, KHZ_TRACKER_WORDS, w, 10, numbers - 1, 4, "a word whose records don't fit is not refused with 4");
        must_refuse_word(before, KHZ_TRACKER_WORDS, w, 10, 0, 4, "a word with records and no room is not refused with 4");
        must_refuse_payload(before, KHZ_TRACKER_WORDS, w, 10, numbers - 1, 4, "a payload whose records don't fit is not refused with 4");
    }
    {
        tracker_array copy = *before;
        fill(b, WORD_BUFFER + GUARD);
        demand(is_payload(khz_payload(copy.n, KHZ_TRACKER_WORDS, w, 10, b, WORD_BUFFER), 0, 1, n), "a payload of one word answers otherwise than the word");
        demand(same_tracker(&copy, &tracker), "a payload of one word leaves another tracker than the word");
        demand(same_numbers(b, records, numbers) && untouched(b, numbers, WORD_BUFFER + GUARD), "a payload of one word gives other records than the word");
    }
}

static void begin_stretch(void)
{
    stretch.before = tracker;
    stretch.words = 0;
}

/* A payload call on `t` over words [from, to) of the stretch, with just the room that they need; must take all of them. */
static void part(tracker_array *t, size_t from, size_t to, const char *what)
{
    static uint64_t b[BUFFER + GUARD];
    size_t start = (size_t)stretch.upto[from], n = (size_t)stretch.upto[to] - start, numbers = n * KHZ_RECORD_NUMBERS;
    khz_payload_answer a;

    fill(b, numbers + GUARD);
    a = khz_payload(t->n, KHZ_TRACKER_WORDS, to > from ? stretch.bytes + from * KHZ_WORD_BYTES : NULL, (to - from) * KHZ_WORD_BYTES, numbers ? b : NULL, numbers);
    demand(is_payload(a, 0, to - from, n), what);
    demand(same_numbers(b, stretch.records + start * KHZ_RECORD_NUMBERS, numbers), "a payload gives other records than its words");
    demand(untouched(b, numbers, numbers + GUARD), "a payload wrote behind its records");
    demand(same_tracker(t, to > 0 ? &stretch.after[to - 1] : &stretch.before), "a payload leaves another tracker than its words");
}

/* The words of a stretch that ends a full packet, and the word w behind them, which must be refused with 3. */
static void one_too_many(const uint8_t *w)
{
    static uint64_t b[BUFFER + GUARD];
    size_t words = stretch.words, total = (size_t)stretch.upto[words], numbers = total * KHZ_RECORD_NUMBERS;
    tracker_array t = stretch.before;
    khz_payload_answer a;

    memmove(stretch.bytes + words * KHZ_WORD_BYTES, w, KHZ_WORD_BYTES);
    fill(b, BUFFER + GUARD);
    a = khz_payload(t.n, KHZ_TRACKER_WORDS, stretch.bytes, (words + 1) * KHZ_WORD_BYTES, b, numbers);
    demand(is_payload(a, 3, words, total), "a payload past the packet's last word is not refused with 3 after those before");
    demand(same_numbers(b, stretch.records, numbers) && untouched(b, numbers, BUFFER + GUARD), "a payload refused with 3 wrote other records than its words'");
    demand(same_tracker(&t, &stretch.after[words - 1]), "a payload refused with 3 leaves another tracker than its words");
}

/* Payload calls over the words that word calls took since the last packet or reset. */
static void end_stretch(void)
{
    static uint64_t b[BUFFER + GUARD];
    size_t words = stretch.words, total, mix = words * 7919 + (size_t)line_number;
    tracker_array t;

    if (!checking || words == 0)
        return;
    total = (size_t)stretch.upto[words];

    t = stretch.before;
    part(&t, 0, words, "a whole payload is not accepted as its words were");

    t = stretch.before;
    part(&t, 0, mix % (words + 1), "the first part of a payload is not accepted as its words were");
    part(&t, mix % (words + 1), words, "the second part of a payload is not accepted as its words were");

    if (total > 0) {
        size_t room = mix % total, fit = 0, numbers;
        khz_payload_answer a;

        while (stretch.upto[fit + 1] <= room)
            fit++;
        numbers = (size_t)stretch.upto[fit] * KHZ_RECORD_NUMBERS;
        t = stretch.before;
        fill(b, BUFFER + GUARD);
        a = khz_payload(t.n, KHZ_TRACKER_WORDS, stretch.bytes, words * KHZ_WORD_BYTES, room ? b : NULL,
                        room ? room * KHZ_RECORD_NUMBERS + KHZ_RECORD_NUMBERS - 1 : 0);
        demand(is_payload(a, 4, fit, stretch.upto[fit]), "a payload without room is not refused with 4 at the right word");
        demand(same_numbers(b, stretch.records, numbers) && untouched(b, numbers, BUFFER + GUARD), "a payload refused with 4 wrote other records than its words'");
        demand(same_tracker(&t, fit ? &stretch.after[fit - 1] : &stretch.before), "a payload refused with 4 leaves another tracker than its words");
        part(&t, fit, words, "the rest of a payload refused with 4 is not accepted");
    }
    must_refuse_payload(&stretch.before, KHZ_TRACKER_WORDS, stretch.bytes, words * KHZ_WORD_BYTES - 1, WORD_BUFFER, 1, "a payload of 10 n - 1 bytes is not refused with 1");
    if (taken == KHZ_PACKET_WORDS) {
        const uint8_t *last = stretch.bytes + (words - 1) * KHZ_WORD_BYTES;
        check_refusals(last, true, true);
        one_too_many(last);
        memset(stretch.bytes + words * KHZ_WORD_BYTES, 0xFF, KHZ_WORD_BYTES);
        one_too_many(stretch.bytes + words * KHZ_WORD_BYTES);
    }
}

static void print_records(const uint64_t *r, uint64_t n)
{
    for (uint64_t i = 0; i < n; i++, r += KHZ_RECORD_NUMBERS) {
        demand(r[4] == packets, "a record's fifth number is not the count of packets accepted since the start");
        printf(" ; %" PRIu64 " %" PRIu64 " %" PRIu64 " %" PRIu64, r[0], r[1], r[2], r[3]);
    }
    putchar('\n');
}

#ifndef PLAIN
/* An array that is no tracker: all four calls must refuse it with 100 and leave it. plain.c takes any array of the right length. */
static void must_be_no_tracker(const tracker_array *t, const char *what)
{
    uint8_t w[KHZ_WORD_BYTES] = {0};
    tracker_array copy = *t;

    must_refuse_word(t, KHZ_TRACKER_WORDS, w, KHZ_WORD_BYTES, WORD_BUFFER, 100, what);
    must_refuse_word(t, KHZ_TRACKER_WORDS, w, KHZ_WORD_BYTES - 1, 0, 100, what);
    must_refuse_payload(t, KHZ_TRACKER_WORDS, w, KHZ_WORD_BYTES, WORD_BUFFER, 100, what);
    must_refuse_payload(t, KHZ_TRACKER_WORDS, NULL, 0, 0, 100, what);
    demand(khz_reset(copy.n, KHZ_TRACKER_WORDS) == 100, what);
    demand(khz_packet(copy.n, KHZ_TRACKER_WORDS, 0, 0, 0, 0, 0, 0, 2) == 100, what);
    demand(khz_packet(copy.n, KHZ_TRACKER_WORDS, 0, 0, 0, 0, 0, 0, 1) == 100, what);
    demand(same_tracker(&copy, t), "an array that is no tracker was changed");
}

static void check_no_tracker(void)
{
    tracker_array t;
    size_t refused = 0;

    memset(&t, 0, sizeof t);
    must_be_no_tracker(&t, "an array of zeros is not refused with 100");
    memset(&t, 0xFF, sizeof t);
    must_be_no_tracker(&t, "an array of all ones is not refused with 100");
    /* one number spoilt: where that is refused, it must be left; which numbers can't be all ones is the library's affair */
    for (size_t i = 0; i < KHZ_TRACKER_WORDS; i++) {
        tracker_array copy;
        t = tracker;
        t.n[i] = UINT64_MAX;
        copy = t;
        if (khz_reset(copy.n, KHZ_TRACKER_WORDS) == 100) {
            refused++;
            must_be_no_tracker(&t, "an array is refused by one call and not by another");
        }
    }
    demand(refused > 0, "no number of a tracker is looked at");
}
#endif

static void start(uint64_t running, uint64_t frames, uint64_t periodic, uint64_t period, uint64_t rule)
{
    tracker_array other;

    end_stretch();
    memset(&tracker, 0x5A, sizeof tracker);
    if (khz_start(tracker.n, KHZ_TRACKER_WORDS, running, frames, periodic, period, rule) != 0)
        tell("khz_start is refused");
    started = true;
    packets = 0;
    taken = 0;
    if (checking) {
        uint8_t w[KHZ_WORD_BYTES] = {0};
        memset(&other, 0xC3, sizeof other);
        other.n[KHZ_TRACKER_WORDS] = tracker.n[KHZ_TRACKER_WORDS];
        demand(khz_start(other.n, KHZ_TRACKER_WORDS, running, frames, periodic, periodic ? period : ~period, rule) == 0, "khz_start is refused");
        demand(same_tracker(&other, &tracker), "what khz_start writes depends on what stood there, or on a period that is not set");
        demand(khz_start(other.n, KHZ_TRACKER_WORDS, 2, frames, periodic, period, rule) == 101, "khz_start takes a flag of 2");
        demand(khz_start(other.n, KHZ_TRACKER_WORDS, running, frames, 1, period + ((uint64_t)1 << 32), rule) == 101, "khz_start takes a period above 4,294,967,295");
        demand(khz_start(other.n, KHZ_TRACKER_WORDS, running, frames, periodic, period, 0) == 101, "khz_start takes rule 0");
        demand(khz_start(other.n, KHZ_TRACKER_WORDS, running, frames, periodic, period, 3) == 101, "khz_start takes rule 3");
        demand(khz_start(other.n, KHZ_TRACKER_WORDS, running, frames, periodic, period, rule + ((uint64_t)1 << 32)) == 101, "khz_start cuts the rule");
        demand(khz_start(other.n, KHZ_TRACKER_WORDS - 1, running, 2, periodic, period, rule) == 100, "100 does not come before 101");
        demand(khz_start(other.n, KHZ_TRACKER_WORDS - 1, running, frames, periodic, period, rule) == 100, "khz_start takes a short array");
        demand(khz_start(other.n, KHZ_TRACKER_WORDS + 1, !running, frames, periodic, period, rule) == 100, "khz_start takes a long array");
        demand(khz_start(NULL, 0, running, frames, periodic, period, rule) == 100, "khz_start takes no array");
        demand(same_tracker(&other, &tracker), "a refused khz_start wrote");
        check_refusals(w, false, false);
#ifndef PLAIN
        check_no_tracker();
#endif
    }
    begin_stretch();
}

static uint64_t packet_on(tracker_array *t, size_t tracker_len, const uint64_t f[7])
{
    return khz_packet(t->n, tracker_len, f[0], f[1], f[2], f[3], f[4], f[5], f[6]);
}

/* The packet with one field put out of its range. */
static void must_refuse_packet(const uint64_t f[7], int field, uint64_t n)
{
    tracker_array copy = tracker;
    uint64_t g[7];

    memcpy(g, f, sizeof g);
    g[field] = n;
    demand(packet_on(&copy, KHZ_TRACKER_WORDS, g) == 5, "a packet field outside its range is not refused with 5");
    demand(packet_on(&copy, KHZ_TRACKER_WORDS - 1, g) == 100, "a packet on a short array is not refused with 100 before 5");
    demand(same_tracker(&copy, &tracker), "a refused packet changed the tracker");
}

/* The end of the count, which no line of calls reaches: it is set here. The same packet once more changes one number of the tracker and no other, and
 * that is the count. At the last but one a packet is accepted, and its records say the last; the next is refused with 10, whatever its fields are, and
 * leaves everything; 100 and 5 come before it. */
static void check_last_packet(const uint64_t f[7])
{
    static const uint8_t w[KHZ_WORD_BYTES] = {[9] = 0xF1}; /* gives a record in every state */
    const uint64_t other[7] = {f[0] ? f[0] - 1 : 1, f[1] ^ 1, f[2] ^ 1, f[3] ^ 1, f[4] ^ 1, f[5] ^ 1, f[6] ^ 2};
    uint64_t b[WORD_BUFFER], bad[7];
    tracker_array t = tracker, last;
    size_t changed = 0, place = 0;

    demand(packet_on(&t, KHZ_TRACKER_WORDS, f) == 0, "a packet is refused the second time");
    for (size_t i = 0; i < KHZ_TRACKER_WORDS; i++)
        if (t.n[i] != tracker.n[i]) {
            changed++;
            place = i;
        }
    demand(changed == 1 && tracker.n[place] == packets && t.n[place] == packets + 1, "the same packet again does not count, or does more than that");
    t.n[place] = KHZ_PACKETS_MAX - 1;
    demand(packet_on(&t, KHZ_TRACKER_WORDS, f) == 0, "the last packet is refused");
    for (int i = 0; i < 2; i++) { /* a word of the last packet, before and after a packet that is refused */
        khz_word_answer a = khz_word(t.n, KHZ_TRACKER_WORDS, w, sizeof w, b, WORD_BUFFER);
        demand(a.refusal == 0 && a.records > 0 && a.records <= KHZ_RECORDS_PER_WORD, "a word of the last packet gives no record");
        for (uint64_t k = 0; k < KHZ_RECORDS_PER_WORD && k < a.records; k++)
            demand(b[k * KHZ_RECORD_NUMBERS + 4] == KHZ_PACKETS_MAX, "a record of the last packet does not say so");
        last = t;
        demand(packet_on(&t, KHZ_TRACKER_WORDS, other) == 10, "a packet beyond the last count is not refused with 10");
        memcpy(bad, other, sizeof bad);
        bad[3] = 4096;
        demand(packet_on(&t, KHZ_TRACKER_WORDS, bad) == 5, "5 does not come before 10");
        demand(packet_on(&t, KHZ_TRACKER_WORDS - 1, other) == 100, "100 does not come before 10");
        demand(same_tracker(&t, &last), "a packet refused with 10 changed the tracker");
    }
    demand(khz_reset(t.n, KHZ_TRACKER_WORDS) == 0 && packet_on(&t, KHZ_TRACKER_WORDS, f) == 10, "a reset counts packets anew");
}

static void packet(const uint64_t f[7])
{
    static const uint64_t last[7] = {KHZ_POSITION_MAX, UINT32_MAX, UINT32_MAX, 4095, UINT16_MAX, UINT8_MAX, 2};
    uint64_t r;

    end_stretch();
    if (checking) {
        for (int i = 0; i < 7; i++) {
            must_refuse_packet(f, i, last[i] + 1);
            must_refuse_packet(f, i, last[i] + (UINT64_C(1) << 32));
            must_refuse_packet(f, i, UINT64_MAX);
        }
        must_refuse_packet(f, 6, 1);
    }
    r = packet_on(&tracker, KHZ_TRACKER_WORDS, f);
    if (r != 0)
        printf("REFUSED %" PRIu64 "\n", r);
    else {
        packets++;
        taken = 0;
        if (checking)
            check_last_packet(f);
    }
    begin_stretch();
}

static void reset(void)
{
    end_stretch();
    if (checking) {
        tracker_array copy = tracker;
        demand(khz_reset(copy.n, KHZ_TRACKER_WORDS + 1) == 100 && khz_reset(copy.n, 0) == 100, "a reset of an array of another length is not refused with 100");
        demand(same_tracker(&copy, &tracker), "a refused reset changed the tracker");
    }
    if (khz_reset(tracker.n, KHZ_TRACKER_WORDS) != 0)
        tell("khz_reset is refused");
    begin_stretch();
}

static void word(const uint8_t *w, size_t len)
{
    static const char *const names[] = {"", "IHW", "IHW_continuation", "TDH", "TDH_after_packet_done", "TDH_continuation", "DataWord", "CDW", "TDT", "DDW0"};
    static uint64_t b[WORD_BUFFER + GUARD];
    tracker_array before = tracker;
    khz_word_answer a;

    if (checking)
        check_refusals(w, packets > 0, packets > 0 && taken == KHZ_PACKET_WORDS);
    fill(b, WORD_BUFFER + GUARD);
    a = khz_word(tracker.n, KHZ_TRACKER_WORDS, w, len, b, WORD_BUFFER);
    if (a.refusal != 0) {
        demand(refused_word(a, a.refusal) && same_tracker(&before, &tracker) && untouched(b, 0, WORD_BUFFER + GUARD), "a refused word left a trace");
        printf("REFUSED %" PRIu64 "\n", a.refusal);
        return;
    }
    /* these two always, since what is printed below relies on them */
    if (a.kind > KHZ_DDW0 || a.records > KHZ_RECORDS_PER_WORD) {
        tell("an answer that can't be printed");
        printf("BROKEN\n");
        return;
    }
    demand(untouched(b, (size_t)a.records * KHZ_RECORD_NUMBERS, WORD_BUFFER + GUARD), "a word wrote behind its records");
    if (checking) {
        demand(len == KHZ_WORD_BYTES && packets > 0 && taken < KHZ_PACKET_WORDS, "a word that must be refused was taken");
        check_answer(w, a);
        check_word_again(&before, w, a, b);
        if (stretch.words < KHZ_PACKET_WORDS) {
            size_t i = stretch.words++;
            stretch.upto[0] = 0;
            memcpy(stretch.bytes + i * KHZ_WORD_BYTES, w, KHZ_WORD_BYTES);
            memcpy(stretch.records + stretch.upto[i] * KHZ_RECORD_NUMBERS, b, (size_t)a.records * KHZ_RECORD_NUMBERS * sizeof *b);
            stretch.upto[i + 1] = stretch.upto[i] + a.records;
            stretch.after[i] = tracker;
        }
    }
    taken++;
    printf("%s %" PRIu64 " ", names[a.kind], a.guessed);
    if (a.frame == KHZ_FRAME_CLOSED)
        printf("C:%" PRIu64 ":%" PRIu64, a.frame_start, a.frame_end);
    else
        putchar(a.frame == KHZ_FRAME_OPENED ? 'O' : '-');
    print_records(b, a.records);
}

static void payload(const uint8_t *bytes, size_t len)
{
    static uint64_t b[BUFFER + GUARD];
    khz_payload_answer a;

    end_stretch();
    fill(b, BUFFER + GUARD);
    a = khz_payload(tracker.n, KHZ_TRACKER_WORDS, len ? bytes : NULL, len, b, BUFFER);
    printf("Y %" PRIu64 " %" PRIu64 " %" PRIu64, a.refusal, a.words, a.records);
    if (a.records > BUFFER_RECORDS) {
        tell("an answer that can't be printed");
        a.records = 0;
    }
    demand(untouched(b, (size_t)a.records * KHZ_RECORD_NUMBERS, BUFFER + GUARD), "a payload wrote behind its records");
    print_records(b, a.records);
    taken += (size_t)a.words;
    begin_stretch();
}

static int digit(char c)
{
    return c >= '0' && c <= '9' ? c - '0' : c >= 'a' && c <= 'f' ? c - 'a' + 10 : c >= 'A' && c <= 'F' ? c - 'A' + 10 : -1;
}

/* Hex digits to bytes; returns how many bytes. */
static size_t unhex(const char *s, uint8_t *out)
{
    size_t n = 0;
    for (; digit(s[0]) >= 0 && digit(s[1]) >= 0; s += 2)
        out[n++] = (uint8_t)(digit(s[0]) * 16 + digit(s[1]));
    return n;
}

static void bad_line(void)
{
    fprintf(stderr, "khz_driver: line %" PRIu64 " is no call\n", line_number);
    exit(2);
}

int main(int argc, char **argv)
{
    static char line[LINE];
    static uint8_t bytes[LINE / 2];

    checking = argc == 2 && strcmp(argv[1], "-c") == 0;
    if (argc > 1 && !checking) {
        fprintf(stderr, "usage: khz_driver [-c] < CALLS\n");
        return 2;
    }
    while (fgets(line, sizeof line, stdin)) {
        uint64_t f[7];
        unsigned running, frames, rule;
        char period[16];
        size_t n;

        line_number++;
        if (line[0] == '\n')
            continue;
        if (strlen(line) == sizeof line - 1)
            bad_line(); /* longer than any call */
        if (line[0] != 'S' && !started) {
            printf("DEAD\n");
            continue;
        }
        switch (line[0]) {
        case 'S':
            rule = 1;
            if (sscanf(line + 1, "%u %u %15s %u", &running, &frames, period, &rule) < 3)
                bad_line();
            start(running == 1, frames == 1, period[0] != '-', period[0] != '-' ? strtoull(period, NULL, 10) : 0, rule);
            break;
        case 'P':
            if (sscanf(line + 1, "%" SCNu64 "%" SCNu64 "%" SCNu64 "%" SCNu64 "%" SCNu64 "%" SCNu64 "%" SCNu64, &f[0], &f[1], &f[2], &f[3], &f[4], &f[5], &f[6]) != 7)
                bad_line();
            packet(f);
            break;
        case 'W':
            n = unhex(line + 2, bytes);
            if (n == 0)
                bad_line();
            word(bytes, n);
            break;
        case 'R':
            reset();
            break;
        case 'Y':
            n = line[1] == ' ' ? unhex(line + 2, bytes) : 0;
            payload(bytes, n);
            break;
        default:
            bad_line();
        }
    }
    end_stretch();
    if (fflush(stdout) != 0)
        return 2;
    if (broken)
        fprintf(stderr, "khz_driver: %" PRIu64 " promises broken\n", broken);
    return broken ? 1 : 0;
}
