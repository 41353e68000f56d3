/* box.c: the loop of a readout box over the library, in C: start once, each packet's header, then its words.
 *
 *     cc -std=c99 -I include examples/box.c libkhandzorul.a -o box && ./box FILE
 *
 * In a box the packets come from the link; here they come from a bench file (document 01, "Bench file"), and the output is what benchcheck
 * prints of it. The exit status is that of ./check: 0 checked, no records. 1 checked, with records. 2 not checked: refused, not to be read, or
 * not to be printed.
 */
#include "khandzorul.h"

#include <inttypes.h>
#include <stdbool.h>
#include <stdio.h>

enum { CLEAN = 0, RECORDS = 1, NOT_CHECKED = 2 };

enum { PACKETS_AT = 16, PACKET_BYTES = 24 };

/* Room for the records of one word is the least with which every call gets on; more room, fewer calls. */
enum { ROOM = KHZ_RECORDS_PER_WORD };

static uint64_t number(const uint8_t *p, int bytes)
{
    uint64_t n = 0;
    while (bytes-- > 0)
        n = n << 8 | p[bytes];
    return n;
}

/* Takes the words of a packet and prints their records, which packet first. Where the room is used up, prints what there is and hands in the rest. */
static uint64_t take_words(uint64_t *tracker, const uint8_t *words, size_t bytes, uint64_t *given)
{
    uint64_t records[ROOM * KHZ_RECORD_NUMBERS];
    khz_payload_answer a;

    do {
        a = khz_payload(tracker, KHZ_TRACKER_WORDS, words, bytes, records, ROOM * KHZ_RECORD_NUMBERS);
        for (const uint64_t *r = records; r < records + a.records * KHZ_RECORD_NUMBERS; r += KHZ_RECORD_NUMBERS)
            printf("%" PRIu64 " %" PRIu64 " %" PRIu64 " %" PRIu64 " %" PRIu64 "\n", r[4], r[0], r[1], r[2], r[3]);
        *given += a.records;
        words += a.words * KHZ_WORD_BYTES;
        bytes -= a.words * KHZ_WORD_BYTES;
    } while (a.refusal == KHZ_NO_ROOM);
    return a.refusal;
}

/* The packets of a file that khz_check_file has accepted. */
static uint64_t take_packets(const uint8_t *file, uint64_t *given)
{
    uint64_t tracker[KHZ_TRACKER_WORDS], refusal;
    const uint8_t *words = file + number(file + 12, 4);

    refusal = khz_start(tracker, KHZ_TRACKER_WORDS, 1, 1, 1, 198, KHZ_RULE_1);
    for (uint64_t i = 0; i < number(file, 4) && refusal == KHZ_DONE; i++) {
        const uint8_t *p = file + PACKETS_AT + PACKET_BYTES * i;
        size_t bytes = (size_t)number(p + 22, 2) * KHZ_WORD_BYTES;
        refusal = khz_packet(tracker, KHZ_TRACKER_WORDS, number(p, 8), number(p + 8, 4), number(p + 12, 4), number(p + 16, 2), number(p + 18, 2),
                             p[20], p[21]);
        if (refusal == KHZ_DONE)
            refusal = take_words(tracker, words, bytes, given);
        words += bytes;
    }
    return refusal;
}

/* Reads a file up to the buffer's end. Not true: it can't be opened or read, and errno says why. */
static bool read_file(const char *name, uint8_t *buffer, size_t most, size_t *bytes)
{
    FILE *f = fopen(name, "rb");
    bool read;

    if (!f)
        return false;
    *bytes = fread(buffer, 1, most, f);
    read = !ferror(f);
    fclose(f);
    return read;
}

int main(int argc, char **argv)
{
    static uint8_t file[KHZ_FILE_BYTES + 1];         /* one byte more, so that a longer file is seen to be longer */
    uint64_t refusal, given = 0;
    size_t bytes;

    if (argc != 2) {
        fprintf(stderr, "usage: box FILE\n");
        return NOT_CHECKED;
    }
    if (!read_file(argv[1], file, sizeof file, &bytes)) {
        perror(argv[1]);
        return NOT_CHECKED;
    }
    refusal = khz_check_file(file, bytes);
    if (refusal == KHZ_DONE) {
        puts("packet pos code first second");
        refusal = take_packets(file, &given);
    }
    if (refusal == KHZ_DONE)
        printf("records %" PRIu64 "\n", given);
    else
        printf("refused %" PRIu64 "\n", refusal);
    if (fflush(stdout) != 0 || ferror(stdout)) {
        perror("standard output");
        return NOT_CHECKED;
    }
    if (refusal != KHZ_DONE)
        return NOT_CHECKED;
    return given == 0 ? CLEAN : RECORDS;
}
