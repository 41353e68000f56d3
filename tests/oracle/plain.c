/* plain.c: the calls of khandzorul.h by hand in plain C, from documents 01 and 02. Nothing here is proved. The comparison with the Rust is
 * tried on it and on wrong versions of it (wrong.py), and the benchmark has it as a column, which shows what is left to gain.
 *
 * Unlike the library it takes any array of the right length for a tracker.
 */
#include "plain.h"

#include <string.h>

/* What a run of clean words goes through is inlined as a whole; what only a record needs is kept out of the way. */
#ifdef __GNUC__
#define HOT static inline __attribute__((always_inline))
#define COLD static __attribute__((noinline, cold))
#define APART static __attribute__((noinline))
#else
#define HOT static inline
#define COLD static
#define APART static
#endif

/* The states of 01. DATA_ and c_DATA_ have the same rows, so one state stands for both. */
enum { IHW_, TDH_, THREE, C_IHW_, C_TDH_, DATA_ };

/* The places of a tracker. NONE marks what is not there; no value that is stored reaches it. */
#define NONE UINT64_MAX
enum {
    RUNNING, FRAMES, PERIOD, RULE,                   /* settings; PERIOD or NONE */
    POSITION, ORBIT, TRIGGER, BC, PAGE, STOP,        /* packet */
    STRIDE,                                          /* bytes from word to word; 0 before the first packet */
    PACKETS,                                         /* packets accepted since the start */
    STATE, COUNT, SEEN,                              /* COUNT: words taken in this packet; SEEN: data seen in it */
    LANES, QUIET,                                    /* active lanes of the IHW stored last; ids of data words that give no record */
    TDH,                                             /* bits 63:0 of the TDH stored last */
    INTERNAL,                                        /* orbit and BC of the internal TDH stored last, or NONE */
    CDW,                                             /* user fields of the CDW stored last, or NONE */
    FRAME,                                           /* where the open frame began, or NONE */
    PLACES
};
typedef char tracker_is_long_enough[PLACES <= KHZ_TRACKER_WORDS ? 1 : -1];

enum { ID_IHW = 0xE0, ID_DDW0 = 0xE4, ID_TDH = 0xE8, ID_TDT = 0xF0, ID_CDW = 0xF8 };
enum { LAST_BC = KHZ_LAST_CROSSING, ORBIT_LENGTH = LAST_BC + 1 };
#define HALF_A_TURN ((uint64_t)1 << 31) /* of the orbit number: from here on time ran back */

/* A word: bits 63:0, bits 71:64, id. */
typedef struct {
    uint64_t low;
    unsigned high, id;
} word;

HOT word load(const uint8_t *b)
{
    word w;
    /* compilers make one load of this, on either byte order */
    w.low = (uint64_t)b[0] | (uint64_t)b[1] << 8 | (uint64_t)b[2] << 16 | (uint64_t)b[3] << 24
          | (uint64_t)b[4] << 32 | (uint64_t)b[5] << 40 | (uint64_t)b[6] << 48 | (uint64_t)b[7] << 56;
    w.high = b[8];
    w.id = b[9];
    return w;
}

/* A word's records, kept here until it is known that all of them fit. A word without records writes only n. */
typedef struct {
    uint64_t n, position, packet;
    uint64_t number[KHZ_RECORDS_PER_WORD][KHZ_RECORD_NUMBERS];
} record_list;

COLD void say(record_list *r, uint64_t code, uint64_t first, uint64_t second)
{
    uint64_t *x = r->number[r->n++];
    x[0] = r->position;
    x[1] = code;
    x[2] = first;
    x[3] = second;
    x[4] = r->packet;
}

/* Where records go: the room that is left behind the first `used` records of the caller's array. */
typedef struct {
    uint64_t *records;
    size_t used, room;
} buffer;

HOT bool put(const record_list *r, buffer *b)
{
    if (r->n == 0)
        return true;
    if (r->n > b->room - b->used)
        return false;
    memcpy(b->records + b->used * KHZ_RECORD_NUMBERS, r->number, r->n * sizeof r->number[0]);
    b->used += r->n;
    return true;
}

/* Data ids as bits: bit i stands for id 0x20 + i. Lane l of the inner ids is bit l; the outer ids have seven lanes in every eight. */
HOT uint64_t quiet_ids(uint64_t running, uint64_t lanes)
{
    uint64_t on = running ? lanes : 0xFFFFFFF;
    return (on & 0x1FF) | (on & 0x7F) << 32 | (on >> 7 & 0x7F) << 40 | (on >> 14 & 0x7F) << 48 | (on >> 21 & 0x7F) << 56;
}

HOT bool has_id(uint64_t ids, unsigned id)
{
    unsigned i = id - 0x20;
    return i < 64 && (ids >> i & 1);
}

HOT unsigned outer_lane(unsigned id)
{
    return id <= 0x46 ? id % 64 : id <= 0x4E ? 7 + id % 72 : id <= 0x56 ? 14 + id % 80 : 21 + id % 88;
}

HOT unsigned ones(uint64_t lanes)
{
    unsigned n = 0;
    for (unsigned i = 0; i < 28; i++)
        n += lanes >> i & 1;
    return n;
}

/* The functions below look first and store only when the records fit. False: refused with 4, nothing changed, the answer neither. */

HOT bool take_ihw(uint64_t *t, word w, uint64_t kind, record_list *r, buffer *b, khz_word_answer *a)
{
    if (w.id != ID_IHW)
        say(r, 30, 1, 0);
    else if (w.low >> 28 | w.high)
        say(r, 30, 2, 0);
    if (t[RUNNING] && kind == KHZ_IHW) {
        if (t[STOP] != 0)
            say(r, 1120, t[STOP], 0);
        if (t[STATE] == IHW_ && t[PAGE] != 0)
            say(r, 1121, t[PAGE], 0);
        if (t[STATE] == THREE && t[PAGE] == 0)
            say(r, 1122, t[PAGE], 0);
    }
    if (!put(r, b))
        return false;
    t[LANES] = w.low & 0xFFFFFFF;
    t[QUIET] = quiet_ids(t[RUNNING], t[LANES]);
    t[STATE] = kind == KHZ_IHW ? TDH_ : C_TDH_;
    a->kind = kind;
    a->lanes = ones(t[LANES]);
    return true;
}

HOT void interval(const uint64_t *t, uint64_t bc, uint64_t orbit, record_list *r)
{
    uint64_t previous = t[INTERNAL] & 0xFFF, orbits = (orbit - (t[INTERNAL] >> 12)) & 0xFFFFFFFF, found;
    if (t[PERIOD] == NONE || t[INTERNAL] == NONE)
        return;
    if (previous > LAST_BC || bc > LAST_BC) {
        say(r, 1045, previous, bc);
        return;
    }
    if (t[RULE] == KHZ_RULE_1) {
        found = bc >= previous ? bc - previous : bc + ORBIT_LENGTH - previous;
    } else if (orbits >= HALF_A_TURN || (orbits == 0 && bc < previous)) {
        say(r, 1046, previous, bc);
        return;
    } else {
        found = orbits * ORBIT_LENGTH + bc - previous;
    }
    if (found != t[PERIOD])
        say(r, 45, found, t[PERIOD]);
}

HOT bool take_tdh(uint64_t *t, word w, uint64_t kind, record_list *r, buffer *b, khz_word_answer *a)
{
    uint64_t type = w.low & 0xFFF, bc = w.low >> 16 & 0xFFF, orbit = w.low >> 32;
    bool internal = w.low >> 12 & 1, no_data = w.low >> 13 & 1, continuation = w.low >> 14 & 1;
    uint64_t previous = t[TDH], previous_type = previous & 0xFFF, previous_bc = previous >> 16 & 0xFFF;

    if (w.id != ID_TDH) {
        say(r, 40, 1, 0);
    } else {
        uint64_t reserved = (w.low & 0xF0008000) | w.high;
        uint64_t detail = (reserved ? 2 : 0) + (type == 0 && !internal ? 4 : 0);
        if (detail)
            say(r, 40, detail, 0);
    }
    if (t[RUNNING]) {
        if (kind == KHZ_TDH_AFTER_PACKET_DONE) {
            if (previous_bc > bc)
                say(r, 440, previous_bc, bc);
        } else if (kind == KHZ_TDH) {
            if (continuation)
                say(r, 42, 1, 0);
            if (orbit != t[ORBIT])
                say(r, 444, orbit, t[ORBIT]);
            if (t[PAGE] == 0 && (internal || (t[TRIGGER] >> 4 & 1))) {
                if (bc != t[BC])
                    say(r, 445, bc, t[BC]);
                if (type != (t[TRIGGER] & 0xFFF))
                    say(r, 44, type, t[TRIGGER] & 0xFFF);
            }
        } else {
            if (!continuation)
                say(r, 41, 0, 0);
            if (bc != previous_bc)
                say(r, 441, bc, previous_bc);
            if (orbit != previous >> 32)
                say(r, 442, orbit, previous >> 32);
            if (type != previous_type)
                say(r, 443, type, previous_type);
        }
        if (internal && kind != KHZ_TDH_CONTINUATION)
            interval(t, bc, orbit, r);
    }
    if (!put(r, b))
        return false;
    t[TDH] = w.low;
    if (internal)
        t[INTERNAL] = orbit << 12 | bc;
    if (t[FRAMES] && t[FRAME] == NONE && !continuation) {
        t[FRAME] = r->position;
        a->frame = KHZ_FRAME_OPENED;
    }
    t[STATE] = no_data && kind != KHZ_TDH_CONTINUATION ? THREE : DATA_;
    a->kind = kind;
    return true;
}

HOT bool take_tdt(uint64_t *t, word w, record_list *r, buffer *b, khz_word_answer *a)
{
    bool done = w.high & 1;
    /* no state takes a word of another id as TDT, so 50 with 1 is never given */
    if ((w.low >> 56 & 0x1F) | (w.high & 0xF4))
        say(r, 50, 2, 0);
    if (t[FRAMES] && done && t[FRAME] == NONE)
        say(r, 59, 0, 0);
    if (!put(r, b))
        return false;
    if (done && t[FRAME] != NONE) {
        a->frame = KHZ_FRAME_CLOSED;
        a->frame_start = t[FRAME];
        a->frame_end = r->position;
        t[FRAME] = NONE;
    }
    t[STATE] = done ? THREE : C_IHW_;
    a->kind = KHZ_TDT;
    return true;
}

HOT bool take_ddw0(uint64_t *t, word w, record_list *r, buffer *b, khz_word_answer *a)
{
    if (w.id != ID_DDW0) {
        say(r, 992, w.id, 0);
        say(r, 60, 1, 0);
    } else {
        uint64_t reserved = w.low >> 56 | (w.high & 0x05);
        uint64_t detail = (reserved ? 2 : 0) + (w.high >> 4 ? 4 : 0);
        if (detail)
            say(r, 60, detail, 0);
    }
    if (t[RUNNING]) {
        if (t[STOP] != 1)
            say(r, 1110, t[STOP], 0);
        if (t[PAGE] == 0)
            say(r, 1111, t[PAGE], 0);
    }
    if (!put(r, b))
        return false;
    t[STATE] = IHW_;
    a->kind = KHZ_DDW0;
    a->guessed = w.id != ID_DDW0;
    return true;
}

/* What is said of a lane that is not active; of one above the last that there is none such. */
HOT void say_lane(record_list *r, unsigned code, unsigned lane, unsigned last, uint64_t lanes)
{
    if (lane > last)
        say(r, 1074, lane, lanes);
    else if (!(lanes >> lane & 1))
        say(r, code, lane, lanes);
}

/* A word in DATA_ that is no TDT. The state stays. */
HOT bool take_data(uint64_t *t, word w, record_list *r, buffer *b, khz_word_answer *a)
{
    bool known = has_id(quiet_ids(0, 0), w.id), cdw = w.id == ID_CDW;
    bool first_cdw = cdw && !t[SEEN];
    uint64_t user = w.low & 0xFFFFFFFFFFFF, index = w.low >> 48 | (uint64_t)w.high << 16;

    if (first_cdw) {
        if (t[RUNNING] && t[CDW] != NONE && user != t[CDW] && index != 0)
            say(r, 81, index, 0);
    } else {
        if (!known && !cdw)
            say(r, 991, w.id, 0);
        if (!known)
            say(r, 70, w.id, 0);
        if (t[RUNNING] && w.id >> 5 == 1) {
            say_lane(r, 1072, w.id % 32, 8, t[LANES]);
        } else if (t[RUNNING] && w.id >> 5 == 2) {
            unsigned input = w.id % 8;
            say_lane(r, 1071, outer_lane(w.id), 27, t[LANES]);
            if (input > 6)
                say(r, 1073, input, 0);
        }
    }
    if (!put(r, b))
        return false;
    if (first_cdw)
        t[CDW] = user;
    t[SEEN] = 1;
    a->guessed = !known && !cdw;
    a->kind = cdw ? KHZ_CDW : KHZ_DATA_WORD;
    return true;
}

/* One word by 01's table, in a packet that has room for it. */
HOT bool take(uint64_t *t, const uint8_t *bytes, buffer *b, khz_word_answer *a)
{
    word w = load(bytes);
    bool taken;
    record_list r;

    r.n = 0;
    r.position = t[POSITION] + 64 + t[COUNT] * t[STRIDE];
    r.packet = t[PACKETS];
    switch (t[STATE]) {
    case DATA_:
        taken = w.id == ID_TDT ? take_tdt(t, w, &r, b, a) : take_data(t, w, &r, b, a);
        break;
    case IHW_:
        taken = take_ihw(t, w, KHZ_IHW, &r, b, a);
        break;
    case C_IHW_:
        taken = take_ihw(t, w, KHZ_IHW_CONTINUATION, &r, b, a);
        break;
    case TDH_:
        taken = take_tdh(t, w, KHZ_TDH, &r, b, a);
        break;
    case C_TDH_:
        taken = take_tdh(t, w, KHZ_TDH_CONTINUATION, &r, b, a);
        break;
    default: /* THREE */
        taken = w.id == ID_TDH ? take_tdh(t, w, KHZ_TDH_AFTER_PACKET_DONE, &r, b, a)
              : w.id == ID_IHW ? take_ihw(t, w, KHZ_IHW, &r, b, a)
                               : take_ddw0(t, w, &r, b, a);
    }
    if (taken) {
        t[COUNT]++;
        a->records = r.n;
    }
    return taken;
}

uint64_t plain_start(uint64_t *t, size_t tracker_len, uint64_t running, uint64_t frames, uint64_t periodic, uint64_t period, uint64_t rule)
{
    if (tracker_len != KHZ_TRACKER_WORDS)
        return KHZ_NO_TRACKER;
    if (running > 1 || frames > 1 || periodic > 1 || (periodic && period > KHZ_PERIOD_MAX) || (rule != KHZ_RULE_1 && rule != KHZ_RULE_2))
        return KHZ_NO_SETTINGS;
    memset(t, 0, KHZ_TRACKER_WORDS * sizeof *t);
    t[RUNNING] = running;
    t[FRAMES] = frames;
    t[PERIOD] = periodic ? period : NONE;
    t[RULE] = rule;
    t[STATE] = IHW_;
    t[INTERNAL] = t[CDW] = t[FRAME] = NONE;
    return KHZ_DONE;
}

uint64_t plain_packet(uint64_t *t, size_t tracker_len, uint64_t position, uint64_t orbit, uint64_t trigger_type, uint64_t bc, uint64_t page, uint64_t stop, uint64_t format)
{
    if (tracker_len != KHZ_TRACKER_WORDS)
        return KHZ_NO_TRACKER;
    if (position > KHZ_POSITION_MAX || orbit >> 32 || trigger_type >> 32 || bc > 4095 || page >> 16 || stop >> 8 || (format != 0 && format != 2))
        return KHZ_PACKET_FIELD;
    if (t[PACKETS] == KHZ_PACKETS_MAX)
        return KHZ_LAST_PACKET;
    t[PACKETS]++;
    t[POSITION] = position;
    t[ORBIT] = orbit;
    t[TRIGGER] = trigger_type;
    t[BC] = bc;
    t[PAGE] = page;
    t[STOP] = stop;
    t[STRIDE] = format == 0 ? 16 : 10;
    t[COUNT] = 0;
    t[SEEN] = 0;
    return KHZ_DONE;
}

/* A word that is not refused with 1, 2 or 3. Apart, so that plain_word stays small. */
APART khz_word_answer take_word(uint64_t *t, const uint8_t *bytes, uint64_t *records, size_t records_len)
{
    khz_word_answer a = {.refusal = KHZ_DONE};
    buffer b = {records, 0, records_len / KHZ_RECORD_NUMBERS};
    if (!take(t, bytes, &b, &a))
        a.refusal = KHZ_NO_ROOM;
    return a;
}

khz_word_answer plain_word(uint64_t *t, size_t tracker_len, const uint8_t *bytes, size_t word_len, uint64_t *records, size_t records_len)
{
    if (tracker_len != KHZ_TRACKER_WORDS)
        return (khz_word_answer){.refusal = KHZ_NO_TRACKER};
    if (word_len != KHZ_WORD_BYTES)
        return (khz_word_answer){.refusal = KHZ_WRONG_LENGTH};
    if (t[STRIDE] == 0)
        return (khz_word_answer){.refusal = KHZ_NO_PACKET};
    if (t[COUNT] == KHZ_PACKET_WORDS)
        return (khz_word_answer){.refusal = KHZ_PACKET_FULL};
    /* most words are data words that give no record */
    if (t[STATE] == DATA_ && has_id(t[QUIET], bytes[9])) {
        t[COUNT]++;
        t[SEEN] = 1;
        return (khz_word_answer){.kind = KHZ_DATA_WORD};
    }
    return take_word(t, bytes, records, records_len);
}

khz_payload_answer plain_payload(uint64_t *t, size_t tracker_len, const uint8_t *payload, size_t payload_len, uint64_t *records, size_t records_len)
{
    khz_payload_answer p = {0, 0, 0};
    buffer b = {records, 0, records_len / KHZ_RECORD_NUMBERS};
    khz_word_answer a;
    size_t at = 0;

    p.refusal = tracker_len != KHZ_TRACKER_WORDS     ? KHZ_NO_TRACKER
              : payload_len % KHZ_WORD_BYTES != 0    ? KHZ_WRONG_LENGTH
              : t[STRIDE] == 0                       ? KHZ_NO_PACKET
                                                     : KHZ_DONE;
    if (p.refusal)
        return p;
    while (at < payload_len) {
        if (t[STATE] == DATA_) {
            /* a run of data words that give no record needs their ids alone */
            uint64_t quiet = t[QUIET];
            size_t from = at, left = (KHZ_PACKET_WORDS - t[COUNT]) * KHZ_WORD_BYTES;
            size_t end = payload_len - at < left ? payload_len : at + left;
            while (at < end && has_id(quiet, payload[at + 9]))
                at += KHZ_WORD_BYTES;
            if (at > from) {
                t[COUNT] += (at - from) / KHZ_WORD_BYTES;
                t[SEEN] = 1;
                if (at == payload_len)
                    break;
            }
        }
        if (t[COUNT] == KHZ_PACKET_WORDS) {
            p.refusal = KHZ_PACKET_FULL;
            break;
        }
        if (!take(t, payload + at, &b, &a)) {
            p.refusal = KHZ_NO_ROOM;
            break;
        }
        at += KHZ_WORD_BYTES;
    }
    p.words = at / KHZ_WORD_BYTES;
    p.records = b.used;
    return p;
}

uint64_t plain_reset(uint64_t *t, size_t tracker_len)
{
    if (tracker_len != KHZ_TRACKER_WORDS)
        return KHZ_NO_TRACKER;
    t[STATE] = IHW_;
    return KHZ_DONE;
}
