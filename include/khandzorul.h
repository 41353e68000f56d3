/* khandzorul.h: the C boundary of Khandzorul, checks of the words that an ITS readout link delivers. C99 and C++.
 *
 * Use: khz_start once for each link, khz_packet at each packet, then khz_payload for all its words or khz_word for each of them.
 *   khz_write_ihw and its like make the words of a test before a stave is wired; they need no tracker. khz_worst_lane and khz_lane_status
 *   read the lane status of one word, alone.
 *
 * Numbers.  Every number comes in with 64 bits, so that its range is decided by the library and not by a conversion of the compiler. A
 *   number that is too large is refused, and never cut: a crossing of 65541 is not crossing 5.
 *
 * Memory.  The caller owns all of it. The library has no heap, no global and no file, and keeps no pointer after a call.
 *   A tracker is an array of KHZ_TRACKER_WORDS numbers that khz_start writes. Its content is the library's: copy it as a whole, change
 *   nothing in it. A copy is a tracker too. Use one tracker for each link, and one thread at a time for each tracker; calls on
 *   different trackers may run at the same time. The array's first number carries KHZ_API: an array that another version wrote is
 *   answered by 100.
 *   A pointer may be null where its length is 0. Arrays of one call that overlap are the caller's fault.
 *
 * Lengths.  tracker_len and records_len count 64-bit numbers, the other lengths count bytes. records_len is numbers and not records:
 *   the room is records_len / KHZ_RECORD_NUMBERS records, rounded down. Room for KHZ_RECORDS_PER_WORD records is enough for a word.
 *
 * Records.  A record is five numbers: position, code, first, second, packet. A call writes its records at the front of the array, in
 *   order, and leaves the rest of the array as it was. The packet is the count of packets accepted since khz_start, from 1: a packet that is
 *   refused does not count, and khz_reset keeps the count. So the records of two packets of one position, which come where a source was
 *   restarted, are told apart.
 *
 * Refusals.  Each call answers 0 or the number of a refusal. 100 comes before every other number. A refused khz_start, khz_packet,
 *   khz_word or khz_reset leaves the tracker and the records as they were, bit for bit; so does a khz_payload that took no word. A
 *   khz_payload that is refused with 3 or 4 after some words keeps those: they count, and their records stand in the array.
 *   A refused khz_write_ihw or its like leaves the word's bytes as they were.
 *   In an answer with a refusal all other numbers are 0, save words and records of a khz_payload_answer.
 *   Look at every answer. A compiler that can warn of a call whose answer is not looked at does so.
 *
 * Lost words.  A tracker finds its step again by itself. Whatever it took before, a TDH with bit 13 clear, a data word with bit 13 clear
 *   and a TDT with packet done, one after the other and no khz_reset between, bring it to where a TDH, DDW0 or IHW is next
 *   (docs/RULES.md, "Back in step").
 */
#ifndef KHANDZORUL_H
#define KHANDZORUL_H

#include <stddef.h>
#include <stdint.h>

#ifdef __cplusplus
extern "C" {
#endif

#define KHZ_API 5                                /* the version of this boundary */

#define KHZ_TRACKER_WORDS 48                     /* numbers in a tracker */
#define KHZ_WORD_BYTES 10                        /* bytes in a word */
#define KHZ_DATA_BYTES 9                         /* bytes of a data word before its id */
#define KHZ_LANES 28                             /* lanes of a link, 0 to 27 */
#define KHZ_PACKET_WORDS 4096                    /* words that a packet takes */
#define KHZ_RECORD_NUMBERS 5                     /* numbers in a record: position, code, first, second, packet */
#define KHZ_RECORDS_PER_WORD 6                   /* the most records that one word gives */
#define KHZ_FILE_BYTES 60000                     /* bytes that a bench file has at most */
#define KHZ_LAST_CROSSING 3563                   /* the last legal crossing of an orbit; no period is taken past it */
#define KHZ_POSITION_MAX ((uint64_t)1 << 62)     /* the largest position of a packet */
#define KHZ_PACKETS_MAX ((uint64_t)4294967295u)  /* packets that a tracker accepts */
#define KHZ_PERIOD_MAX ((uint64_t)4294967295u)   /* the largest period, in crossings */

#if defined(__GNUC__)
#define KHZ_ANSWER __attribute__((warn_unused_result))
#elif defined(__cplusplus) && __cplusplus >= 201703L
#define KHZ_ANSWER [[nodiscard]]
#else
#define KHZ_ANSWER
#endif

/* How the period between two internal triggers is found. Rule 1 sees the place in the orbit alone, and finds 0 to 3563: triggers every third
 * orbit have period 0. Rule 2 counts orbits too, over the turn of the orbit number from 4,294,967,295 to 0: the same triggers have 10,692. */
enum khz_rule {
    KHZ_RULE_1 = 1,
    KHZ_RULE_2 = 2
};

/* What a word was taken as. */
enum khz_kind {
    KHZ_NONE = 0,                                /* nothing: the call was refused */
    KHZ_IHW = 1,
    KHZ_IHW_CONTINUATION = 2,
    KHZ_TDH = 3,
    KHZ_TDH_AFTER_PACKET_DONE = 4,
    KHZ_TDH_CONTINUATION = 5,
    KHZ_DATA_WORD = 6,
    KHZ_CDW = 7,
    KHZ_TDT = 8,
    KHZ_DDW0 = 9
};

/* What a word did to the readout frame. */
enum khz_frame {
    KHZ_FRAME_NONE = 0,
    KHZ_FRAME_OPENED = 1,
    KHZ_FRAME_CLOSED = 2
};

/* What a lane of a TDT or DDW0 says of itself, and the worst of them of the word. */
enum khz_status {
    KHZ_GOOD = 0,
    KHZ_WARNING = 1,
    KHZ_ERROR = 2,
    KHZ_FATAL = 3
};

/* Refusals. Where several hold, the first of this order is given: of a start 100, 101; of a packet 100, 5, 10; of a word and of a payload
 * 100, 1, 2, 3, 4; of a file 6, 7, then packet by packet 5, 3; of a word to be written 8, 1. */
enum khz_refusal {
    KHZ_DONE = 0,                                /* not refused */
    KHZ_WRONG_LENGTH = 1,                        /* a word, or the place for one, is not 10 bytes, or a payload not a multiple of 10 */
    KHZ_NO_PACKET = 2,                           /* no packet was accepted yet */
    KHZ_PACKET_FULL = 3,                         /* 4,096 words were taken in this packet; in a file, a packet's count is above 4,096 */
    KHZ_NO_ROOM = 4,                             /* the records of this word exceed the room; the word is not taken */
    KHZ_PACKET_FIELD = 5,                        /* a packet's field is out of its range */
    KHZ_FILE_SHAPE = 6,                          /* a file is under 16 or over 60,000 bytes, or its offsets or length are not as stated */
    KHZ_FILE_COUNT = 7,                          /* the packets' word counts do not sum to the header's */
    KHZ_WORD_FIELD = 8,                          /* a field to be written is wider than its bits, or a data word's id is no data id or its bytes not 9 */
    KHZ_LAST_PACKET = 10,                        /* a packet beyond the last count */
    KHZ_NO_TRACKER = 100,                        /* tracker_len is not KHZ_TRACKER_WORDS, or the array holds no tracker (all zeros is none) */
    KHZ_NO_SETTINGS = 101                        /* a flag is neither 0 nor 1, or periodic is 1 and the period above KHZ_PERIOD_MAX, or the rule is neither 1 nor 2 */
};

/* Codes of records: the second number of a record. docs/CODES.md says of each what its first and second are and what to look at.
 * "R": only with running checks. */
enum khz_code {
    KHZ_CODE_IHW = 30,                           /* an IHW has another id, or a reserved bit set */
    KHZ_CODE_TDH = 40,                           /* a TDH has another id, a reserved bit set, or nothing that triggered it */
    KHZ_CODE_NO_CONTINUATION = 41,               /* R: a TDH continuation has its continuation bit clear */
    KHZ_CODE_CONTINUATION = 42,                  /* R: a TDH that begins has its continuation bit set */
    KHZ_CODE_PACKET_TYPE = 44,                   /* R: the trigger type of a TDH is not its packet's */
    KHZ_CODE_PERIOD = 45,                        /* R: two internal triggers are not the set period apart */
    KHZ_CODE_TDT = 50,                           /* a TDT has another id, or a reserved bit set */
    KHZ_CODE_NO_FRAME = 59,                      /* a TDT with packet done, and no frame was open */
    KHZ_CODE_DDW0 = 60,                          /* a DDW0 has another id, a reserved bit set, or an index that is not 0 */
    KHZ_CODE_NO_DATA_ID = 70,                    /* a word in the data section is neither data nor a first CDW */
    KHZ_CODE_USER_FIELDS = 81,                   /* R: a CDW has other user fields than the one before, and its index is not 0 */
    KHZ_CODE_EARLIER_CROSSING = 440,             /* R: after packet done, a TDH is at an earlier crossing than the TDH before it */
    KHZ_CODE_CONTINUATION_BC = 441,              /* R: a TDH continuation has another crossing than the TDH before it */
    KHZ_CODE_CONTINUATION_ORBIT = 442,           /* R: a TDH continuation has another orbit than the TDH before it */
    KHZ_CODE_CONTINUATION_TYPE = 443,            /* R: a TDH continuation has another trigger type than the TDH before it */
    KHZ_CODE_PACKET_ORBIT = 444,                 /* R: the orbit of a TDH is not its packet's */
    KHZ_CODE_PACKET_BC = 445,                    /* R: the crossing of a TDH is not its packet's */
    KHZ_CODE_UNKNOWN_IN_DATA = 991,              /* an id that is neither data, CDW nor TDT; the word was taken as data */
    KHZ_CODE_UNKNOWN_AFTER_DONE = 992,           /* an id that is neither TDH, DDW0 nor IHW; the word was taken as DDW0 */
    KHZ_CODE_PAST_LAST_CROSSING = 1045,          /* R: a crossing is above 3563, so that there is no period */
    KHZ_CODE_TIME_RAN_BACK = 1046,               /* R, rule 2: an internal trigger is earlier than the one before it, or 2^31 orbits or more later */
    KHZ_CODE_OUTER_LANE = 1071,                  /* R: an outer lane sent data, and the IHW has not switched it on */
    KHZ_CODE_INNER_LANE = 1072,                  /* R: an inner lane sent data, and the IHW has not switched it on */
    KHZ_CODE_INPUT = 1073,                       /* R: the input number of an outer lane is above 6 */
    KHZ_CODE_NO_SUCH_LANE = 1074,                /* R: the id names an inner lane above 8 or an outer one above 27: no cable, the id is damaged */
    KHZ_CODE_DDW0_STOP = 1110,                   /* R: a DDW0 stands in a packet whose stop is not 1 */
    KHZ_CODE_DDW0_PAGE = 1111,                   /* R: a DDW0 stands on page 0 */
    KHZ_CODE_IHW_STOP = 1120,                    /* R: an IHW stands in a packet whose stop is not 0 */
    KHZ_CODE_IHW_PAGE = 1121,                    /* R: an IHW after the start, a reset or a DDW0 stands on a page other than 0 */
    KHZ_CODE_IHW_LATER_PAGE = 1122               /* R: an IHW after a complete trigger, no DDW0 between, stands on page 0 */
};

/* Answer of khz_word. */
typedef struct {
    uint64_t refusal;                            /* enum khz_refusal */
    uint64_t kind;                               /* enum khz_kind */
    uint64_t guessed;                            /* 1: the state knows no word of this id, and kind is its best guess (code 991 or 992); else 0 */
    uint64_t records;                            /* records written, 0 to 6 */
    uint64_t frame;                              /* enum khz_frame */
    uint64_t frame_start;                        /* closed: position of the word that opened the frame; else 0 */
    uint64_t frame_end;                          /* closed: position of this word; else 0 */
    uint64_t lanes;                              /* kind 1 or 2: how many lanes the IHW switches on; else 0 */
} khz_word_answer;

/* Answer of khz_payload. */
typedef struct {
    uint64_t refusal;                            /* enum khz_refusal */
    uint64_t words;                              /* words taken */
    uint64_t records;                            /* records written */
} khz_payload_answer;

/* Answer of khz_worst_lane and khz_lane_status. */
typedef struct {
    uint64_t refusal;                            /* enum khz_refusal */
    uint64_t status;                             /* enum khz_status */
} khz_status_answer;

/* The library writes the answers as numbers one after the other. */
#if defined(__cplusplus) && __cplusplus >= 201103L
static_assert(sizeof(khz_word_answer) == 64 && sizeof(khz_payload_answer) == 24 && sizeof(khz_status_answer) == 16,
              "answers are 8, 3 and 2 numbers of 64 bits");
#elif defined(__STDC_VERSION__) && __STDC_VERSION__ >= 201112L
_Static_assert(sizeof(khz_word_answer) == 64 && sizeof(khz_payload_answer) == 24 && sizeof(khz_status_answer) == 16,
               "answers are 8, 3 and 2 numbers of 64 bits");
#endif

/* Makes a tracker, whatever stood in the array before. Answers 0, 100 or 101.
 * running: running checks on (1) or off (0). frames: readout frames on or off. periodic: 1 if a trigger period is looked for. period: that
 * period in crossings, at most KHZ_PERIOD_MAX; where periodic is 0 it is not looked at. rule: by which it is found, KHZ_RULE_1 or KHZ_RULE_2,
 * also where periodic is 0. Settings are fixed from here on. */
KHZ_ANSWER uint64_t khz_start(uint64_t *tracker, size_t tracker_len, uint64_t running, uint64_t frames, uint64_t periodic, uint64_t period, uint64_t rule);

/* Begins a packet: its words count from 1 again, and no data is seen in it yet. Answers 0, 100, 5 or 10.
 * Ranges: position at most KHZ_POSITION_MAX; orbit and trigger_type below 2^32; bc at most 4095; page below 2^16; stop below 2^8; format 0 (16
 * bytes from word to word) or 2 (10 bytes). Word n of the packet stands at position + 64 + (n - 1) * 16 or 10.
 * A tracker accepts KHZ_PACKETS_MAX packets; the one after these is refused with 10, and words still go to the packet before it. khz_start counts anew. */
KHZ_ANSWER uint64_t khz_packet(uint64_t *tracker, size_t tracker_len, uint64_t position, uint64_t orbit, uint64_t trigger_type, uint64_t bc, uint64_t page, uint64_t stop, uint64_t format);

/* Takes one word of 10 bytes and writes its records. Refusals: 100, 1, 2, 3, 4. */
KHZ_ANSWER khz_word_answer khz_word(uint64_t *tracker, size_t tracker_len, const uint8_t *word, size_t word_len, uint64_t *records, size_t records_len);

/* Takes the words of a payload in order, as khz_word would, and stops at the first that is refused. Refusals: 100, 1, 2, 3, 4.
 * An empty payload is accepted once a packet was. After 4, make room and hand in the rest, from byte words * 10 on. */
KHZ_ANSWER khz_payload_answer khz_payload(uint64_t *tracker, size_t tracker_len, const uint8_t *payload, size_t payload_len, uint64_t *records, size_t records_len);

/* Puts the state machine back to its start, where an IHW is expected. Nothing else changes. Answers 0 or 100. */
KHZ_ANSWER uint64_t khz_reset(uint64_t *tracker, size_t tracker_len);

/* Is this a bench file? Answers 0, or 6, 7, 5 or 3. */
KHZ_ANSWER uint64_t khz_check_file(const uint8_t *file, size_t file_len);

/* The writers: the ten bytes of a word from its fields, its id and its reserved bits as they must be. Each answers 0; 8 where a field is wider
 * than its bits; else 1 where word_len is not KHZ_WORD_BYTES. Refused, the bytes at word stay as they were.
 * Only the width counts: a crossing past KHZ_LAST_CROSSING and a TDH that nothing triggered can be written, so that a box can be tried with them.
 * What is read of a written word are the fields that it was written from. */

/* active_lanes: bits 27:0, bit n for lane n. */
KHZ_ANSWER uint64_t khz_write_ihw(uint64_t active_lanes, uint8_t *word, size_t word_len);

/* trigger_type: 12 bits. internal, no_data, continuation: 0 or 1. bc: 12 bits. orbit: 32 bits. */
KHZ_ANSWER uint64_t khz_write_tdh(uint64_t trigger_type, uint64_t internal, uint64_t no_data, uint64_t continuation, uint64_t bc, uint64_t orbit, uint8_t *word, size_t word_len);

/* lane_status: 56 bits, 2n+1:2n for lane n. The others: 0 or 1. */
KHZ_ANSWER uint64_t khz_write_tdt(uint64_t lane_status, uint64_t timeout_to_start, uint64_t timeout_start_stop, uint64_t timeout_in_idle, uint64_t lane_starts_violation, uint64_t transmission_timeout, uint64_t packet_done, uint8_t *word, size_t word_len);

/* lane_status: as in a TDT. lane_starts_violation, transmission_timeout: 0 or 1. index: 4 bits. */
KHZ_ANSWER uint64_t khz_write_ddw0(uint64_t lane_status, uint64_t lane_starts_violation, uint64_t transmission_timeout, uint64_t index, uint8_t *word, size_t word_len);

/* user_fields: 48 bits. index: 24 bits. */
KHZ_ANSWER uint64_t khz_write_cdw(uint64_t user_fields, uint64_t index, uint8_t *word, size_t word_len);

/* A data word: KHZ_DATA_BYTES bytes, then the id. 8 also where id is none of the data ids (0x20 to 0x28; 0x40 to 0x46, 0x48 to 0x4E, 0x50 to 0x56
 * and 0x58 to 0x5E) and where bytes_len is not KHZ_DATA_BYTES. */
KHZ_ANSWER uint64_t khz_write_data(uint64_t id, const uint8_t *bytes, size_t bytes_len, uint8_t *word, size_t word_len);

/* The lane status of a TDT or DDW0: of its worst lane, or of one lane; a lane above 27 has none, and the answer is 0. The id is not looked at. The only
 * refusal is 1, where word_len is not KHZ_WORD_BYTES. */
KHZ_ANSWER khz_status_answer khz_worst_lane(const uint8_t *word, size_t word_len);
KHZ_ANSWER khz_status_answer khz_lane_status(const uint8_t *word, size_t word_len, uint64_t lane);

#ifdef __cplusplus
}
#endif

#endif
