/* plain.h: the calls of khandzorul.h in plain C, by the prefix plain_. See plain.c. */
#ifndef PLAIN_H
#define PLAIN_H

#include "khandzorul.h"

#include <stdbool.h>

uint64_t plain_start(uint64_t *tracker, size_t tracker_len, uint64_t running, uint64_t frames, uint64_t periodic, uint64_t period, uint64_t rule);
uint64_t plain_packet(uint64_t *tracker, size_t tracker_len, uint64_t position, uint64_t orbit, uint64_t trigger_type, uint64_t bc, uint64_t page, uint64_t stop, uint64_t format);
khz_word_answer plain_word(uint64_t *tracker, size_t tracker_len, const uint8_t *word, size_t word_len, uint64_t *records, size_t records_len);
khz_payload_answer plain_payload(uint64_t *tracker, size_t tracker_len, const uint8_t *payload, size_t payload_len, uint64_t *records, size_t records_len);
uint64_t plain_reset(uint64_t *tracker, size_t tracker_len);

#endif
