/* bench.c: ns a word of khz_payload and khz_word, of the plain C version and of the given Rust, side by side from one run.
 *
 *     bench time WORDS ROUNDS RUST_DRIVER FOLDER        prints the tables; `-` for RUST_DRIVER leaves it out. FOLDER holds the streams
 *     bench count STREAM COLUMN WORDS PASSES            goes PASSES times through a stream; for instruction counts
 *     bench print STREAM WORDS                          a stream as lines (tests/oracle/README.md)
 *
 * Figures are processor time. In a round each column has its turn on each stream, so that a slow moment of the machine falls on all of
 * them; a turn is short, and its figure is the fastest of a few passes. Printed are the fastest round and the median over the rounds. In each
 * round the columns must give the same records, and the Rust as many.
 *
 * -DNO_KHZ: there is no archive. -DBEFORE: there is an older archive too, whose functions are renamed to before_..; it may give other records, since
 * a request may have changed a rule, and where it gives more or fewer that is printed. What they are is not compared: up to KHZ_API 4 a record has four
 * numbers, which find room where five are.
 */
#define _POSIX_C_SOURCE 200809L
#include "plain.h"
#include "streams.h"

#include <inttypes.h>
#include <stdbool.h>
#include <stdlib.h>
#include <string.h>
#include <time.h>

enum { PASSES = 3 };

/* Settings are read at run time, so that no compiler can build them in. */
static volatile uint64_t running = 1, frames = 1, periodic = 1, period = 198, rule = KHZ_RULE_1;

/* Records go to the front of `records` at each call, as a box would have it; `kept` is set for a pass that is not timed, and then all of them stand
 * there one after the other. */
static uint64_t *records;
static size_t records_len;
static bool kept;
typedef struct {
    uint64_t words, records, refused;
} outcome;

static void die(const char *what)
{
    fprintf(stderr, "bench: %s\n", what);
    exit(1);
}

static void *room_for(size_t n, size_t size)
{
    void *p = calloc(n, size);
    if (!p)
        die("no memory");
    return p;
}

#ifdef BEFORE
/* Numbers of its tracker, which another version may have more of. Small values mean the same in narrow and in wide parameters. A version before
 * KHZ_API 3 has no rule, and leaves that last number where it is. */
static size_t before_len;
uint64_t before_start(uint64_t *, size_t, uint64_t, uint64_t, uint64_t, uint64_t, uint64_t);
uint64_t before_packet(uint64_t *, size_t, uint64_t, uint64_t, uint64_t, uint64_t, uint64_t, uint64_t, uint64_t);
khz_word_answer before_word(uint64_t *, size_t, const uint8_t *, size_t, uint64_t *, size_t);
khz_payload_answer before_payload(uint64_t *, size_t, const uint8_t *, size_t, uint64_t *, size_t);
#endif

/* A pass through a stream by payload calls, and one by word calls. */
#define PASSES_OF(lib, numbers)                                                                                                            \
    static outcome lib##_payload_pass(const stream *s)                                                                                    \
    {                                                                                                                                     \
        uint64_t t[64];                                                                                                                   \
        outcome o = {0, 0, 0};                                                                                                            \
        o.refused = lib##_start(t, numbers, running, frames, periodic, period, rule);                                                     \
        for (const packet *p = s->packets; p < s->packets + s->count; p++) {                                                              \
            khz_payload_answer a;                                                                                                         \
            o.refused |= lib##_packet(t, numbers, p->position, p->orbit, p->trigger_type, p->bc, p->page, p->stop, p->format);            \
            a = lib##_payload(t, numbers, s->bytes + p->first * KHZ_WORD_BYTES, p->words * KHZ_WORD_BYTES,                                \
                              records + (kept ? o.records * KHZ_RECORD_NUMBERS : 0), records_len - (kept ? o.records * KHZ_RECORD_NUMBERS : 0)); \
            o.refused |= a.refusal;                                                                                                       \
            o.words += a.words;                                                                                                           \
            o.records += a.records;                                                                                                       \
        }                                                                                                                                 \
        return o;                                                                                                                         \
    }                                                                                                                                     \
    static outcome lib##_word_pass(const stream *s)                                                                                       \
    {                                                                                                                                     \
        uint64_t t[64];                                                                                                                   \
        outcome o = {0, 0, 0};                                                                                                            \
        o.refused = lib##_start(t, numbers, running, frames, periodic, period, rule);                                                     \
        for (const packet *p = s->packets; p < s->packets + s->count; p++) {                                                              \
            const uint8_t *w = s->bytes + p->first * KHZ_WORD_BYTES, *end = w + p->words * KHZ_WORD_BYTES;                                \
            o.refused |= lib##_packet(t, numbers, p->position, p->orbit, p->trigger_type, p->bc, p->page, p->stop, p->format);            \
            for (; w < end; w += KHZ_WORD_BYTES) {                                                                                        \
                khz_word_answer a = lib##_word(t, numbers, w, KHZ_WORD_BYTES, records + (kept ? o.records * KHZ_RECORD_NUMBERS : 0),      \
                                               records_len - (kept ? o.records * KHZ_RECORD_NUMBERS : 0));                                \
                o.refused |= a.refusal;                                                                                                   \
                o.words += a.kind != KHZ_NONE;                                                                                            \
                o.records += a.records;                                                                                                   \
            }                                                                                                                             \
        }                                                                                                                                 \
        return o;                                                                                                                         \
    }

PASSES_OF(plain, KHZ_TRACKER_WORDS)
#ifndef NO_KHZ
PASSES_OF(khz, KHZ_TRACKER_WORDS)
#endif
#ifdef BEFORE
PASSES_OF(before, before_len)
#endif

typedef struct {
    const char *name;
    outcome (*pass)(const stream *);
    const char *like;                /* the plain C column that it is set against */
    bool same;                       /* its records must be the first column's */
} column;

static const column columns[] = {
    {"plain_payload", plain_payload_pass, "plain_payload", true},
    {"plain_word", plain_word_pass, "plain_word", true},
#ifndef NO_KHZ
    {"khz_payload", khz_payload_pass, "plain_payload", true},
    {"khz_word", khz_word_pass, "plain_word", true},
#endif
#ifdef BEFORE
    {"before_payload", before_payload_pass, "plain_payload", false},
    {"before_word", before_word_pass, "plain_word", false},
#endif
};
enum { COLUMNS = sizeof columns / sizeof columns[0], RUST = COLUMNS };

static double now_ns(void)
{
    struct timespec t;
    clock_gettime(CLOCK_PROCESS_CPUTIME_ID, &t);
    return 1e9 * (double)t.tv_sec + (double)t.tv_nsec;
}

static uint64_t hash_records(uint64_t n)
{
    uint64_t h = 0xCBF29CE484222325;
    for (uint64_t i = 0; i < n * KHZ_RECORD_NUMBERS; i++)
        h = (h ^ records[i]) * 0x100000001B3;
    return h;
}

static int by_size(const void *a, const void *b)
{
    double x = *(const double *)a, y = *(const double *)b;
    return x < y ? -1 : x > y;
}

static outcome pass(const column *c, const stream *s)
{
    outcome o = c->pass(s);
    if (o.refused || o.words != s->words)
        die("a call was refused");
    return o;
}

/* One turn of a column. *given gets how many records, *hash what they are. */
static double turn(const column *c, const stream *s, uint64_t *given, uint64_t *hash)
{
    double fastest = 0;

    kept = true;
    *given = pass(c, s).records;
    *hash = hash_records(*given);
    kept = false;
    for (int i = 0; i < PASSES; i++) {
        double start = now_ns(), ns;
        pass(c, s);
        ns = (now_ns() - start) / (double)s->words;
        fastest = i == 0 || ns < fastest ? ns : fastest;
    }
    return fastest;
}

/* The Rust's turn, in a process of its own, which reads the stream before it times. */
static double rust_turn(const char *driver, const char *folder, int k, const stream *s, uint64_t *given)
{
    char command[4096], line[512];
    size_t words;
    double ns;
    FILE *p;

    snprintf(command, sizeof command, "'%s' time '%s/%d' %d", driver, folder, k, PASSES);
    p = popen(command, "r");
    if (!p || !fgets(line, sizeof line, p))
        die("the Rust driver does not answer");
    if (sscanf(line, "words %zu records %" SCNu64 " fastest %lf", &words, given, &ns) != 3)
        die("the Rust driver's answer can't be read");
    if (pclose(p) != 0 || words != s->words)
        die("the Rust driver went through another stream");
    return ns;
}

typedef struct {
    double fastest, median;
} figure;

static size_t plain_of(const char *name)
{
    for (size_t c = 0; c < COLUMNS; c++)
        if (strcmp(columns[c].name, name) == 0)
            return c;
    return 0;
}

/* A table of ratios: to the Rust, or each column to the plain C version of its call. */
static void ratios(const char *what, size_t all, figure (*f)[STREAMS], bool rust)
{
    printf("\n%s\n", what);
    for (size_t c = 0; c < all; c++) {
        if (c == RUST && rust)
            continue;
        printf("%-15s", c == RUST ? "Rust" : columns[c].name);
        for (int k = 0; k < STREAMS; k++) {
            const figure *to = &f[rust ? (size_t)RUST : plain_of(c == RUST ? "plain_payload" : columns[c].like)][k];
            printf("  %6.2f (%6.2f)", f[c][k].fastest / to->fastest, f[c][k].median / to->median);
        }
        putchar('\n');
    }
}

static int time_all(size_t words, size_t rounds, const char *driver, const char *folder)
{
    bool rust = strcmp(driver, "-") != 0;
    size_t all = COLUMNS + (rust ? 1 : 0);
    stream s[STREAMS];
    double *ns[COLUMNS + 1][STREAMS];
    figure f[COLUMNS + 1][STREAMS];

    for (int k = 0; k < STREAMS; k++) {
        s[k] = make_stream(k, words);
        for (size_t c = 0; c < all; c++)
            ns[c][k] = room_for(rounds, sizeof(double));
        if (rust) {
            char name[4096];
            FILE *out;
            snprintf(name, sizeof name, "%s/%d", folder, k);
            if (!(out = fopen(name, "w")))
                die("a stream can't be written");
            print_stream(&s[k], out);
            if (fclose(out) != 0)
                die("a stream can't be written");
        }
    }
    for (int k = 0; k < STREAMS; k++)
        if (records_len < s[k].words * KHZ_RECORDS_PER_WORD * KHZ_RECORD_NUMBERS)
            records_len = s[k].words * KHZ_RECORDS_PER_WORD * KHZ_RECORD_NUMBERS;
    records = room_for(records_len, sizeof *records);
    for (size_t r = 0; r < rounds; r++)
        for (int k = 0; k < STREAMS; k++) {
            uint64_t given = 0, first_hash = 0;
            for (size_t c = 0; c < all; c++) {
                uint64_t n = 0, hash = 0;
                ns[c][k][r] = c == RUST ? rust_turn(driver, folder, k, &s[k], &n) : turn(&columns[c], &s[k], &n, &hash);
                if (c == 0) {
                    given = n;
                    first_hash = hash;
                }
                if (c == RUST ? n != given : columns[c].same && (n != given || hash != first_hash))
                    die("the columns don't give the same records");
                if (r == 0 && n != given)
                    printf("stream    %-6s %s gives %" PRIu64 " records\n", s[k].name, columns[c].name, n);
            }
            if (r == 0)
                printf("stream    %-6s %s: %zu words, %zu packets, %" PRIu64 " records\n", s[k].name, s[k].says, s[k].words, s[k].count, given);
        }
    for (size_t c = 0; c < all; c++)
        for (int k = 0; k < STREAMS; k++) {
            qsort(ns[c][k], rounds, sizeof(double), by_size);
            f[c][k].fastest = ns[c][k][0];
            f[c][k].median = ns[c][k][rounds / 2];
        }
    printf("figures   ns of processor time a word: fastest (median) of %zu interleaved rounds\n\n%-15s", rounds, "");
    for (int k = 0; k < STREAMS; k++)
        printf("  %15s", s[k].name);
    putchar('\n');
    for (size_t c = 0; c < all; c++) {
        printf("%-15s", c == RUST ? "Rust" : columns[c].name);
        for (int k = 0; k < STREAMS; k++)
            printf("  %6.2f (%6.2f)", f[c][k].fastest, f[c][k].median);
        putchar('\n');
    }
    ratios("to plain C, payload to payload and word to word", all, f, false);
    if (rust)
        ratios("to the Rust", all, f, true);
    return 0;
}

static int count_one(int k, const char *name, size_t words, long passes)
{
    stream s = make_stream(k, words);
    records_len = s.words * KHZ_RECORDS_PER_WORD * KHZ_RECORD_NUMBERS;
    records = room_for(records_len, sizeof *records);
    for (size_t c = 0; c < COLUMNS; c++)
        if (strcmp(columns[c].name, name) == 0) {
            for (long i = 0; i < passes; i++)
                pass(&columns[c], &s);
            printf("%zu\n", s.words);
            return 0;
        }
    die("no such column");
    return 1;
}

int main(int argc, char **argv)
{
#ifdef BEFORE
    uint64_t t[64];
    while (before_len < 64 && before_start(t, before_len, 1, 1, 1, 198, KHZ_RULE_1) != 0)
        before_len++;
#endif
    if (argc == 6 && strcmp(argv[1], "time") == 0 && atol(argv[3]) > 0)
        return time_all((size_t)atol(argv[2]), (size_t)atol(argv[3]), argv[4], argv[5]);
    if (argc == 6 && strcmp(argv[1], "count") == 0)
        return count_one(atoi(argv[2]) % STREAMS, argv[3], (size_t)atol(argv[4]), atol(argv[5]));
    if (argc == 4 && strcmp(argv[1], "print") == 0) {
        stream s = make_stream(atoi(argv[2]) % STREAMS, (size_t)atol(argv[3]));
        print_stream(&s, stdout);
        return 0;
    }
    fprintf(stderr, "usage: bench time WORDS ROUNDS RUST_DRIVER FOLDER | bench count STREAM COLUMN WORDS PASSES | bench print STREAM WORDS\n");
    return 2;
}
