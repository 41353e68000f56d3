/* stack.c: bytes of stack that each exported function takes at most, over the streams of the benchmark, measured by painting.
 *
 *     stack WORDS
 *
 * Each call runs on a stack of its own that was filled with a pattern; what is no longer the pattern afterwards was used. A call of an
 * empty function by the same way is taken off, so that a figure is the function's own, with its arguments, the address to return to and the
 * place for its answer. The red zone of x86-64 is in it, where it is used. For x86-64 and aarch64.
 */
#include "khandzorul.h"
#include "streams.h"

#include <stdlib.h>
#include <string.h>

enum { SIZE = 1 << 16, PATTERN = 0xA5 };

static _Alignas(16) unsigned char stack[SIZE];

/* What a call is made on. */
static uint64_t tracker[KHZ_TRACKER_WORDS], records[KHZ_PACKET_WORDS * KHZ_RECORDS_PER_WORD * KHZ_RECORD_NUMBERS];
static const packet *at;
static const uint8_t *bytes;
static size_t length;
static volatile uint64_t seen;

static void nothing(void) {}
static void start(void) { seen = khz_start(tracker, KHZ_TRACKER_WORDS, 1, 1, 1, 198, KHZ_RULE_1); }
static void reset(void) { seen = khz_reset(tracker, KHZ_TRACKER_WORDS); }
static void begin(void)
{
    seen = khz_packet(tracker, KHZ_TRACKER_WORDS, at->position, at->orbit, at->trigger_type, at->bc, at->page, at->stop, at->format);
}
static void word(void) { seen = khz_word(tracker, KHZ_TRACKER_WORDS, bytes, length, records, sizeof records / sizeof *records).refusal; }
static void payload(void) { seen = khz_payload(tracker, KHZ_TRACKER_WORDS, bytes, length, records, sizeof records / sizeof *records).refusal; }
static void check_file(void) { seen = khz_check_file(bytes, length); }

#ifndef NO_WRITERS /* an older archive has none */
/* A written word, and its lane status. */
static uint8_t written[KHZ_WORD_BYTES];
static const uint8_t nine[KHZ_DATA_BYTES] = {1, 2, 3, 4, 5, 6, 7, 8, 9};
static void write_ihw(void) { seen = khz_write_ihw(0xFFFFFFF, written, sizeof written); }
static void write_tdh(void) { seen = khz_write_tdh(0xFFF, 1, 1, 1, 0xFFF, UINT32_MAX, written, sizeof written); }
static void write_tdt(void) { seen = khz_write_tdt(UINT64_MAX >> 8, 1, 1, 1, 1, 1, 1, written, sizeof written); }
static void write_ddw0(void) { seen = khz_write_ddw0(UINT64_MAX >> 8, 1, 1, 15, written, sizeof written); }
static void write_cdw(void) { seen = khz_write_cdw(UINT64_MAX >> 16, 0xFFFFFF, written, sizeof written); }
static void write_data(void) { seen = khz_write_data(0x5E, nine, sizeof nine, written, sizeof written); }
static void worst_lane(void) { seen = khz_worst_lane(written, sizeof written).refusal; }
static void lane_status(void) { seen = khz_lane_status(written, sizeof written, 27).refusal; }
#endif

/* Calls f with its stack below top. A register that the callee saves keeps the old place. */
static void call_below(void (*f)(void), unsigned char *top)
{
#if defined(__x86_64__) || defined(FOR_X86_64) /* the latter where another machine preprocesses */
    __asm__ volatile("mov %%rsp, %%rbx\n\tmov %1, %%rsp\n\tcall *%0\n\tmov %%rbx, %%rsp"
                     : "+r"(f), "+r"(top)
                     :
                     : "rbx", "rax", "rcx", "rdx", "rsi", "rdi", "r8", "r9", "r10", "r11", "xmm0", "xmm1", "xmm2", "xmm3", "xmm4", "xmm5",
                       "xmm6", "xmm7", "xmm8", "xmm9", "xmm10", "xmm11", "xmm12", "xmm13", "xmm14", "xmm15", "cc", "memory");
#elif defined(__aarch64__)
    __asm__ volatile("mov x19, sp\n\tmov sp, %1\n\tblr %0\n\tmov sp, x19"
                     : "+r"(f), "+r"(top)
                     :
                     : "x19", "x0", "x1", "x2", "x3", "x4", "x5", "x6", "x7", "x8", "x9", "x10", "x11", "x12", "x13", "x14", "x15", "x16", "x17",
                       "x18", "x30", "v0", "v1", "v2", "v3", "v4", "v5", "v6", "v7", "v16", "v17", "v18", "v19", "v20", "v21", "v22", "v23", "v24",
                       "v25", "v26", "v27", "v28", "v29", "v30", "v31", "cc", "memory");
#else
#error "stack.c knows x86-64 and aarch64"
#endif
}

static size_t used_by(void (*f)(void))
{
    size_t untouched = 0;
    memset(stack, PATTERN, SIZE);
    call_below(f, stack + SIZE);
    while (untouched < SIZE && stack[untouched] == PATTERN)
        untouched++;
    return SIZE - untouched;
}

static struct {
    const char *name;
    void (*call)(void);
    size_t most;
} calls[] = {{"khz_start", start, 0}, {"khz_packet", begin, 0}, {"khz_word", word, 0}, {"khz_payload", payload, 0}, {"khz_reset", reset, 0}, {"khz_check_file", check_file, 0},
#ifndef NO_WRITERS
             {"khz_write_ihw", write_ihw, 0}, {"khz_write_tdh", write_tdh, 0}, {"khz_write_tdt", write_tdt, 0}, {"khz_write_ddw0", write_ddw0, 0},
             {"khz_write_cdw", write_cdw, 0}, {"khz_write_data", write_data, 0}, {"khz_worst_lane", worst_lane, 0}, {"khz_lane_status", lane_status, 0},
#endif
};
enum { START, PACKET, WORD, PAYLOAD, RESET, CHECK_FILE, WRITERS, CALLS = sizeof calls / sizeof *calls };

static void try_call(int k)
{
    size_t n = used_by(calls[k].call);
    if (seen != 0) {
        fprintf(stderr, "stack: a call was refused\n");
        exit(1);
    }
    calls[k].most = n > calls[k].most ? n : calls[k].most;
}

static uint8_t *put(uint8_t *to, uint64_t n, int size)
{
    for (int i = 0; i < size; i++)
        *to++ = (uint8_t)(n >> 8 * i);
    return to;
}

/* The stream as a bench file, where it is short enough for one. */
static void make_file(const stream *s)
{
    static uint8_t file[KHZ_FILE_BYTES];
    static const int sizes[] = {8, 4, 4, 2, 2, 1, 1, 2};
    uint8_t *to = file;

    bytes = file;
    length = 16 + 24 * s->count + KHZ_WORD_BYTES * s->words;
    if (length > sizeof file)
        return;
    to = put(to, s->count, 4);
    to = put(to, s->words, 4);
    to = put(to, 16, 4);
    to = put(to, 16 + 24 * s->count, 4);
    for (const packet *p = s->packets; p < s->packets + s->count; p++) {
        const uint64_t fields[] = {p->position, p->orbit, p->trigger_type, p->bc, p->page, p->stop, p->format, p->words};
        for (int i = 0; i < 8; i++)
            to = put(to, fields[i], sizes[i]);
    }
    memcpy(to, s->bytes, KHZ_WORD_BYTES * s->words);
    try_call(CHECK_FILE);
}

int main(int argc, char **argv)
{
    size_t words = argc == 2 ? (size_t)atol(argv[1]) : 2000;
    size_t empty = used_by(nothing);

    for (int k = 0; k < STREAMS; k++) {
        stream s = make_stream(k, words);
        for (int by_word = 0; by_word < 2; by_word++) {
            try_call(START);
            for (at = s.packets; at < s.packets + s.count; at++) {
                const uint8_t *end = s.bytes + (at->first + at->words) * KHZ_WORD_BYTES;
                try_call(PACKET);
                bytes = s.bytes + at->first * KHZ_WORD_BYTES;
                length = by_word ? KHZ_WORD_BYTES : (size_t)(end - bytes);
                for (; bytes < end; bytes += length)
                    try_call(by_word ? WORD : PAYLOAD);
            }
            try_call(RESET);
        }
        make_file(&s);
    }
    for (int k = WRITERS; k < CALLS; k++)
        try_call(k);
    for (int k = 0; k < CALLS; k++)
        printf("%-15s %6zu\n", calls[k].name, calls[k].most - empty);
    return 0;
}
