/* streams.c: the streams that the benchmark measures on, made here and handed to every column, the Rust's too.
 *
 * One orbit after the other: an IHW, 18 internal triggers at crossings 0, 198, .. 3366 with 12 data words each, the tenth cut over two
 * pages, then a page with a DDW0. So 12 of 14 words are data, and a packet has some 86 words. Other streams are this one with outer
 * lanes, with damage, with each word in a packet of its own, or with each trigger on a page of its own.
 */
#include "streams.h"

#include <stdbool.h>
#include <stdlib.h>
#include <string.h>

enum { WORD = 10, TRIGGERS = 18, PERIOD = 198, DATA = 12, PAGE_BYTES = 8192 };

static const struct {
    const char *name, *says;
    bool outer, alone, paged;
    unsigned damaged_per_1000;
} kinds[STREAMS] = {
    {"inner", "clean, inner lanes", false, false, false, 0},
    {"outer", "clean, outer lanes", true, false, false, 0},
    {"1%", "inner lanes, 1% of the words damaged", false, false, false, 10},
    {"10%", "inner lanes, 10% damaged", false, false, false, 100},
    {"all", "inner lanes, every word damaged", false, false, false, 1000},
    {"alone", "clean, inner lanes, each word in a packet of its own", false, true, false, 0},
    {"pages", "clean, inner lanes, each trigger on a page of its own", false, false, true, 0},
};

static void *grow(void *p, size_t n)
{
    p = realloc(p, n);
    if (!p) {
        fprintf(stderr, "bench: no memory\n");
        exit(1);
    }
    return p;
}

static void add(stream *s, const uint8_t word[WORD])
{
    /* doubled at each power of 2 */
    if ((s->words & (s->words - 1)) == 0)
        s->bytes = grow(s->bytes, (s->words ? 2 * s->words : 1) * WORD);
    memcpy(s->bytes + s->words++ * WORD, word, WORD);
}

/* A packet of the words from `first` on. */
static void close_packet(stream *s, size_t first, uint64_t orbit, uint64_t page, uint64_t stop)
{
    packet p = {s->count * PAGE_BYTES, orbit, 0x10, 0, page, stop, 2, first, s->words - first};
    s->packets = grow(s->packets, (s->count + 1) * sizeof p);
    s->packets[s->count++] = p;
}

static void add_tdh(stream *s, unsigned bc, uint32_t orbit, bool continuation)
{
    uint8_t w[WORD] = {0x10, 0x10, 0, 0, 0, 0, 0, 0, 0, 0xE8};
    w[1] |= continuation ? 0x40 : 0;
    w[2] = (uint8_t)bc;
    w[3] = (uint8_t)(bc >> 8);
    for (int i = 0; i < 4; i++)
        w[4 + i] = (uint8_t)(orbit >> 8 * i);
    add(s, w);
}

static void add_tdt(stream *s, uint8_t done)
{
    uint8_t w[WORD] = {0, 0, 0, 0, 0, 0, 0, 0, done, 0xF0};
    add(s, w);
}

/* The d-th data id: inner lanes 0 to 8, or outer lanes 0 to 27, in turn. */
static uint8_t data_id(size_t d, bool outer)
{
    size_t lane = d % 28;
    return (uint8_t)(outer ? 0x40 + lane + lane / 7 : 0x20 + d % 9);
}

/* `paged`: each trigger on a page of its own. */
static void add_orbit(stream *s, uint32_t orbit, bool outer, bool paged)
{
    static const uint8_t ihws[2][WORD] = {{0xFF, 0x01, 0, 0, 0, 0, 0, 0, 0, 0xE0}, {0xFF, 0xFF, 0xFF, 0x0F, 0, 0, 0, 0, 0, 0xE0}};
    static const uint8_t ddw0[WORD] = {0, 0, 0, 0, 0, 0, 0, 0, 0, 0xE4};
    size_t first = s->words;
    uint64_t page = 0;

    add(s, ihws[outer]);
    for (unsigned k = 0; k < TRIGGERS; k++) {
        if (paged && k > 0) {
            close_packet(s, first, orbit, page++, 0);
            first = s->words;
            add(s, ihws[outer]);
        }
        add_tdh(s, k * PERIOD, orbit, false);
        for (unsigned d = 0; d < DATA; d++) {
            uint8_t w[WORD] = {(uint8_t)k, 1, 2, 3, 4, 5, 6, 7, 8, data_id(k * DATA + d, outer)};
            if (k == 9 && d == 6) {
                add_tdt(s, 0);
                close_packet(s, first, orbit, page++, 0);
                first = s->words;
                add(s, ihws[outer]);
                add_tdh(s, k * PERIOD, orbit, true);
            }
            add(s, w);
        }
        add_tdt(s, 1);
    }
    close_packet(s, first, orbit, page++, 0);
    first = s->words;
    add(s, ddw0);
    close_packet(s, first, orbit, page, 1);
}

/* Damage that gives at least one record and keeps the machine in step. */
static void damage(stream *s, unsigned per_1000)
{
    uint64_t random = 0x9E3779B97F4A7C15;
    for (uint8_t *w = s->bytes; w < s->bytes + s->words * WORD; w += WORD) {
        random ^= random << 13;
        random ^= random >> 7;
        random ^= random << 17;
        if ((random >> 20) % 1000 >= per_1000)
            continue;
        switch (w[9]) {
        case 0xE8: w[3] |= 0x10; break;                        /* a reserved bit: 40 */
        case 0xE0: case 0xE4: case 0xF0: w[7] |= 0x01; break;  /* a reserved bit: 30, 60, 50 */
        default: w[9] = 0x2A;                                  /* no data id: 991, 70, 1074 */
        }
    }
}

/* Each word in a packet of its own, which is its packet again. */
static void put_apart(stream *s)
{
    packet *apart = grow(NULL, s->words * sizeof *apart);
    for (const packet *p = s->packets; p < s->packets + s->count; p++)
        for (size_t w = p->first; w < p->first + p->words; w++) {
            apart[w] = *p;
            apart[w].position = w * PAGE_BYTES;
            apart[w].first = w;
            apart[w].words = 1;
        }
    free(s->packets);
    s->packets = apart;
    s->count = s->words;
}

stream make_stream(int k, size_t words)
{
    stream s = {kinds[k].name, kinds[k].says, NULL, NULL, 0, 0};
    for (uint32_t orbit = 7; s.words < words; orbit++)
        add_orbit(&s, orbit, kinds[k].outer, kinds[k].paged);
    damage(&s, kinds[k].damaged_per_1000);
    if (kinds[k].alone)
        put_apart(&s);
    return s;
}

void print_stream(const stream *s, FILE *out)
{
    fprintf(out, "S 1 1 %d\n", PERIOD);
    for (const packet *p = s->packets; p < s->packets + s->count; p++) {
        const uint8_t *b = s->bytes + p->first * WORD, *end = b + p->words * WORD;
        const uint64_t f[7] = {p->position, p->orbit, p->trigger_type, p->bc, p->page, p->stop, p->format};
        fputc('P', out);
        for (int i = 0; i < 7; i++)
            fprintf(out, " %llu", (unsigned long long)f[i]);
        for (size_t i = 0; b < end; i++, b++)
            fprintf(out, i % WORD ? "%02x" : "\nW %02x", *b);
        fputc('\n', out);
    }
}
