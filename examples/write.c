/* write.c: a clean run of words from their fields, as an installer makes it before a stave is wired, and the checker over it. C99.
 *
 *     cc -std=c99 -I include examples/write.c libkhandzorul.a -o writer && ./writer [FILE]
 *
 * Two pages with words of all six kinds: an IHW, two internal triggers 198 crossings apart with a CDW and data, and a DDW0. The checker, with running
 * checks, frames and a period of 198, has nothing to say of them. Prints how many words and records there were. With FILE the words go there too,
 * ten bytes each: `./run fields < FILE` shows what was written.
 * The exit status: 0 clean. 1 with records. 2 not done: a word, a packet or the words were refused, or FILE can't be written.
 */
#include "khandzorul.h"

#include <inttypes.h>
#include <stdbool.h>
#include <stdio.h>

enum { CLEAN = 0, RECORDS = 1, NOT_DONE = 2 };

/* The run: the words of page 0 and of page 1, and what both packets say. */
enum { PAGE_0 = 10, PAGE_1 = 1, WORDS = PAGE_0 + PAGE_1 };
enum { ORBIT = 7, TRIGGER = 0x10, BC = 100, PERIOD = 198 };

/* Counts the answers of writers that are refusals. */
static int refused(uint64_t answer)
{
    return answer != KHZ_DONE;
}

/* The words, ten bytes each. True: all were written. */
static bool write_run(uint8_t *run)
{
    static const uint8_t hits[KHZ_DATA_BYTES] = {0xA1, 0x02, 0x03, 0x04, 0x05, 0x06, 0x07, 0x08, 0xB0};
    const uint64_t lane_1_warning = UINT64_C(1) << 2;
    const size_t n = KHZ_WORD_BYTES;
    uint8_t *w = run;
    int wrong = 0;

    wrong += refused(khz_write_ihw(3, w, n)); /* lanes 0 and 1 */
    wrong += refused(khz_write_tdh(TRIGGER, 1, 0, 0, BC, ORBIT, w += n, n));
    wrong += refused(khz_write_cdw(UINT64_C(0x123456789ABC), 0, w += n, n));
    wrong += refused(khz_write_data(0x20, hits, sizeof hits, w += n, n));
    wrong += refused(khz_write_data(0x21, hits, sizeof hits, w += n, n));
    wrong += refused(khz_write_tdt(lane_1_warning, 0, 0, 0, 0, 0, 1, w += n, n));
    wrong += refused(khz_write_tdh(TRIGGER, 1, 0, 0, BC + PERIOD, ORBIT, w += n, n));
    wrong += refused(khz_write_data(0x20, hits, sizeof hits, w += n, n));
    wrong += refused(khz_write_data(0x21, hits, sizeof hits, w += n, n));
    wrong += refused(khz_write_tdt(0, 0, 0, 0, 0, 0, 1, w += n, n));
    wrong += refused(khz_write_ddw0(lane_1_warning, 0, 0, 0, w += n, n));
    return wrong == 0;
}

/* The words through the checker: how many were taken, and how many records they gave. True: nothing was refused. */
static bool check_run(const uint8_t *run, uint64_t *words, uint64_t *records)
{
    uint64_t tracker[KHZ_TRACKER_WORDS], buffer[WORDS * KHZ_RECORDS_PER_WORD * KHZ_RECORD_NUMBERS];
    const size_t room = sizeof buffer / sizeof *buffer;
    khz_payload_answer first, second;

    if (khz_start(tracker, KHZ_TRACKER_WORDS, 1, 1, 1, PERIOD, KHZ_RULE_1) != KHZ_DONE)
        return false;
    if (khz_packet(tracker, KHZ_TRACKER_WORDS, 0, ORBIT, TRIGGER, BC, 0, 0, 2) != KHZ_DONE)
        return false;
    first = khz_payload(tracker, KHZ_TRACKER_WORDS, run, PAGE_0 * KHZ_WORD_BYTES, buffer, room);
    if (khz_packet(tracker, KHZ_TRACKER_WORDS, 64 + PAGE_0 * KHZ_WORD_BYTES, ORBIT, TRIGGER, BC, 1, 1, 2) != KHZ_DONE)
        return false;
    second = khz_payload(tracker, KHZ_TRACKER_WORDS, run + PAGE_0 * KHZ_WORD_BYTES, PAGE_1 * KHZ_WORD_BYTES, buffer, room);
    *words = first.words + second.words;
    *records = first.records + second.records;
    return first.refusal == KHZ_DONE && second.refusal == KHZ_DONE;
}

static bool save(const char *name, const uint8_t *bytes, size_t n)
{
    FILE *f = fopen(name, "wb");
    bool written;

    if (!f)
        return false;
    written = fwrite(bytes, 1, n, f) == n;
    return fclose(f) == 0 && written;
}

int main(int argc, char **argv)
{
    uint8_t run[WORDS * KHZ_WORD_BYTES];
    uint64_t words, records;

    if (argc > 2) {
        fprintf(stderr, "usage: write [FILE]\n");
        return NOT_DONE;
    }
    if (!write_run(run) || !check_run(run, &words, &records)) {
        fprintf(stderr, "write: the run was refused\n");
        return NOT_DONE;
    }
    if (argc == 2 && !save(argv[1], run, sizeof run)) {
        perror(argv[1]);
        return NOT_DONE;
    }
    printf("words %" PRIu64 "\nrecords %" PRIu64 "\n", words, records);
    if (fflush(stdout) != 0 || ferror(stdout)) {
        perror("standard output");
        return NOT_DONE;
    }
    return records == 0 ? CLEAN : RECORDS;
}
