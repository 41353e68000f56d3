/* streams.h: the streams that the benchmark measures on. See streams.c. */
#ifndef STREAMS_H
#define STREAMS_H

#include <stddef.h>
#include <stdint.h>
#include <stdio.h>

typedef struct {
    uint64_t position, orbit, trigger_type, bc, page, stop, format;
    size_t first, words;             /* its words among those of the stream */
} packet;

typedef struct {
    const char *name, *says;
    uint8_t *bytes;
    packet *packets;
    size_t words, count;             /* words and packets */
} stream;

enum { STREAMS = 7 };

/* Stream k, from 0, of at least so many words; it ends with an orbit. Ends the program where there is no memory. */
stream make_stream(int k, size_t words);

/* The stream as lines that tests/oracle/README.md describes, for the Rust driver. */
void print_stream(const stream *s, FILE *out);

#endif
