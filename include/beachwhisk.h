/* Beachwhisk: the command reader of a chat server, for servers written in C or in any language that calls C.
 *
 * Link libbeachwhisk.a, which `rt lib` builds in crates/beachwhisk, as out/libbeachwhisk.a. It needs memcpy and memset, and nothing else.
 *
 * A sheet is given to each call as its text. The call loads it, does its work and keeps nothing: the library has
 * no memory of its own, never allocates, and any number of threads may call it, on memory of their own.
 * All other memory is the caller's too, and is given as a pointer and how many items it has.
 *
 * What a call asks of its arguments:
 * - A pointer leads to as many items as the length says, aligned for their type. With length 0 it may be null.
 * - Memory that a call writes overlaps nothing else that the call is given.
 * Nothing else: any bytes, any numbers, any lengths are tested, and get an answer or a refusal.
 *
 * A call takes about 46 KiB of stack, as measured; 64 KiB are enough.
 */
#ifndef BEACHWHISK_H
#define BEACHWHISK_H

#include <stddef.h>
#include <stdint.h>

#ifdef __cplusplus
extern "C" {
#endif

/* The longest text of a sheet and the longest message, in bytes. */
#define BEACHWHISK_SHEET_BYTES 16384
#define BEACHWHISK_MESSAGE_BYTES 512

/* A hall is exactly so many numbers of 64 bits: four seats, 0 to 3, of 945 each. */
#define BEACHWHISK_HALL_NUMBERS 3780
#define BEACHWHISK_SEAT_NUMBERS 945
#define BEACHWHISK_SEATS 4

/* What a reading needs at least: bytes for the form, prices of the scale, and numbers of 32 bits. */
#define BEACHWHISK_LIST_BYTES 10240
#define BEACHWHISK_PRICES 8192
#define BEACHWHISK_NUMBERS 8192

/* The codes of an answer: 0, or the refusal's number. docs/REFUSALS.md says what each is given for. */
enum beachwhisk_code {
    BEACHWHISK_DONE = 0,
    BEACHWHISK_SHEET_TOO_LONG = 1,        /* place 0 */
    BEACHWHISK_LINE_SHAPE = 2,            /* place: the line, from 1 */
    BEACHWHISK_LINE_LIMIT = 3,            /* place: the line, from 1 */
    BEACHWHISK_SECOND_ALIAS = 4,          /* place: the line, from 1 */
    BEACHWHISK_NO_RULE = 5,               /* place 0 */
    BEACHWHISK_NO_TREE = 6,               /* place: the name's number, from 0 */
    BEACHWHISK_MESSAGE_TOO_LONG = 7,      /* place 0 */
    BEACHWHISK_BYTE_NOT_ALLOWED = 8,      /* place: the byte's index, from 0 */
    BEACHWHISK_WORD_TOO_LONG = 9,         /* place: the index of its first byte */
    BEACHWHISK_UNLISTED_WORD = 10,        /* place: the index of its first byte, or at say the count standing */
    BEACHWHISK_NO_SUCH_SEAT = 11,         /* place 0 */
    BEACHWHISK_BROKEN_RECORD = 12,        /* place 0 */
    BEACHWHISK_FULL = 13,                 /* place: as of 10 */
    BEACHWHISK_LEADS_NOWHERE = 14,        /* place: as of 10 */
    BEACHWHISK_NOTHING_TO_TAKE_BACK = 15, /* place 0 */
    BEACHWHISK_NO_COMMAND = 16,           /* place 0 */
    BEACHWHISK_BUFFER_TOO_SHORT = 17      /* place 0 */
};

/* The layer that met a refusal. */
enum beachwhisk_layer {
    BEACHWHISK_LOADER = 0,
    BEACHWHISK_TEXT = 1,
    BEACHWHISK_CODES = 2,
    BEACHWHISK_SEAT = 3
};

/* Code 0 and the call's value, with place and layer 0; or the refusal's number, place and layer, with value 0. */
typedef struct beachwhisk_answer {
    uint64_t code;
    uint64_t place;
    uint64_t layer;
    uint64_t value;
} beachwhisk_answer;

/* The same of a reading: the form's length and its price in place of the value. */
typedef struct beachwhisk_reading {
    uint64_t code;
    uint64_t place;
    uint64_t layer;
    uint64_t length;
    uint64_t price;
} beachwhisk_reading;

/* Every call tests the sheet first: refusals 1 to 6, which leave all memory as it was.
 * All calls at a hall from open on must be given the same text. */

/* Tries a sheet. Value: how many words it has; they are numbered from 0 by their first appearance in the text. */
beachwhisk_answer beachwhisk_load(const uint8_t *text, size_t text_length);

/* Empties all four seats, whatever the hall held. Value: 0. Refusals: 11 (the hall's length). */
beachwhisk_answer beachwhisk_open(const uint8_t *text, size_t text_length, uint64_t *hall, size_t hall_length);

/* Empties one seat, whatever it held. Value: 0. Refusals: 11. */
beachwhisk_answer beachwhisk_clear(const uint8_t *text, size_t text_length, uint64_t *hall, size_t hall_length,
                                   size_t seat);

/* Adds a word, by its number, at the end of those that stand. Value: how many words stand then.
 * Refusals, in this order: 11, 12, 10, 13, 14; each leaves the hall as it was. */
beachwhisk_answer beachwhisk_say(const uint8_t *text, size_t text_length, uint64_t *hall, size_t hall_length,
                                 size_t seat, uint8_t word);

/* Takes the last word off. Value: how many words stand then. Refusals: 11, 12, 15; each leaves the hall as it was. */
beachwhisk_answer beachwhisk_back(const uint8_t *text, size_t text_length, uint64_t *hall, size_t hall_length,
                                  size_t seat);

/* Hears a message: clears the seat, and says each word that the server's pile, filler over alias over text, makes
 * of it. Value: how many words stand then. Refusals: 7, then 11, each with the hall as it was; then at each word
 * 8, 9, 10, 13, 14, with the words before it standing. */
beachwhisk_answer beachwhisk_hear(const uint8_t *text, size_t text_length, uint64_t *hall, size_t hall_length,
                                  size_t seat, const uint8_t *message, size_t message_length);

/* The words with which some command goes on from those that stand. Value: bit w is set exactly if word w is one.
 * Refusals: 11, 12. */
beachwhisk_answer beachwhisk_offer(const uint8_t *text, size_t text_length, const uint64_t *hall, size_t hall_length,
                                   size_t seat);

/* How much the seat's table holds. Value: the number of its set bits. Refusals: 11, 12. */
beachwhisk_answer beachwhisk_held(const uint8_t *text, size_t text_length, const uint64_t *hall, size_t hall_length,
                                  size_t seat);

/* Reads the words that stand, on points: the price is the sum of the weights, which stops at 4,294,967,295.
 * The list then begins with the form, one byte a number, and its other bytes are as before; what the prices and
 * numbers then hold is free. Refusals, in this order: 11, 12, 17, 16; each leaves all memory as it was. */
beachwhisk_reading beachwhisk_read_points(const uint8_t *text, size_t text_length,
                                          const uint64_t *hall, size_t hall_length, size_t seat,
                                          uint8_t *list, size_t list_length,
                                          uint32_t *prices, size_t prices_length,
                                          uint32_t *numbers, size_t numbers_length);

/* Reads the words that stand, on worst: the price is the greatest weight. All else as above; prices have 16 bits. */
beachwhisk_reading beachwhisk_read_worst(const uint8_t *text, size_t text_length,
                                         const uint64_t *hall, size_t hall_length, size_t seat,
                                         uint8_t *list, size_t list_length,
                                         uint16_t *prices, size_t prices_length,
                                         uint32_t *numbers, size_t numbers_length);

#ifdef __cplusplus
}
#endif

#endif
