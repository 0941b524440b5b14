/* One task through the library, in C: load a sheet, hear "hold the lathe", and read it.
 * lathe.rs does the same in Rust, and run-linked runs both. */
#include "../include/beachwhisk.h"

#include <inttypes.h>
#include <stdio.h>
#include <string.h>

static const char sheet[] = "rule\t0\tGo\thold\tOpt\tTool\n"
                            "rule\t0\tOpt\n"
                            "rule\t1\tOpt\tthe\n"
                            "rule\t2\tOpt\tOpt\n"
                            "rule\t0\tTool\tlathe\n"
                            "rule\t3\tTool\tOpt\tlathe\n";
static const uint8_t *const text = (const uint8_t *)sheet;
static const size_t text_length = sizeof sheet - 1;

/* The word numbers of the sheet, by first appearance. */
enum { HOLD, THE, LATHE };

static uint64_t hall[BEACHWHISK_HALL_NUMBERS];
static uint8_t list[BEACHWHISK_LIST_BYTES];
static uint32_t points[BEACHWHISK_PRICES];
static uint16_t worst[BEACHWHISK_PRICES];
static uint32_t numbers[BEACHWHISK_NUMBERS];

static void tell_refusal(uint64_t code, uint64_t place, uint64_t layer) {
    printf("refused %" PRIu64 " at %" PRIu64 " by layer %" PRIu64 "\n", code, place, layer);
}

static void tell(const char *call, beachwhisk_answer answer) {
    printf("%s: ", call);
    if (answer.code == BEACHWHISK_DONE)
        printf("%" PRIu64 "\n", answer.value);
    else
        tell_refusal(answer.code, answer.place, answer.layer);
}

static void tell_reading(const char *scale, beachwhisk_reading reading) {
    printf("read on %s: ", scale);
    if (reading.code != BEACHWHISK_DONE) {
        tell_refusal(reading.code, reading.place, reading.layer);
        return;
    }
    printf("price %" PRIu64 ", form", reading.price);
    for (uint64_t i = 0; i < reading.length; i++)
        printf(" %u", (unsigned)list[i]);
    printf("\n");
}

static void hear(const char *message) {
    printf("%s, ", message);
    tell("heard", beachwhisk_hear(text, text_length, hall, BEACHWHISK_HALL_NUMBERS, 0, (const uint8_t *)message,
                                  strlen(message)));
}

static void say(uint8_t word) {
    tell("said", beachwhisk_say(text, text_length, hall, BEACHWHISK_HALL_NUMBERS, 0, word));
}

static void back(void) {
    tell("back", beachwhisk_back(text, text_length, hall, BEACHWHISK_HALL_NUMBERS, 0));
}

static void look(void) {
    tell("held", beachwhisk_held(text, text_length, hall, BEACHWHISK_HALL_NUMBERS, 0));
    tell("offer", beachwhisk_offer(text, text_length, hall, BEACHWHISK_HALL_NUMBERS, 0));
}

static void read_both(size_t list_length) {
    tell_reading("points", beachwhisk_read_points(text, text_length, hall, BEACHWHISK_HALL_NUMBERS, 0, list, list_length,
                                                  points, BEACHWHISK_PRICES, numbers, BEACHWHISK_NUMBERS));
    tell_reading("worst", beachwhisk_read_worst(text, text_length, hall, BEACHWHISK_HALL_NUMBERS, 0, list, list_length,
                                                worst, BEACHWHISK_PRICES, numbers, BEACHWHISK_NUMBERS));
}

/* What a careless server may pass. */
static void odd_arguments(void) {
    static uint64_t full[BEACHWHISK_HALL_NUMBERS];
    memset(full, 0xff, sizeof full);
    tell("no sheet", beachwhisk_load(NULL, 0));
    tell("no hall", beachwhisk_open(text, text_length, NULL, 0));
    tell("a short hall", beachwhisk_clear(text, text_length, hall, BEACHWHISK_HALL_NUMBERS - 1, 0));
    tell("a fifth seat", beachwhisk_say(text, text_length, hall, BEACHWHISK_HALL_NUMBERS, 4, HOLD));
    tell("a hall of any numbers", beachwhisk_say(text, text_length, full, BEACHWHISK_HALL_NUMBERS, 0, HOLD));
    tell("no message", beachwhisk_hear(text, text_length, hall, BEACHWHISK_HALL_NUMBERS, 0, NULL, 0));
    tell_reading("nothing", beachwhisk_read_points(text, text_length, hall, BEACHWHISK_HALL_NUMBERS, 0, NULL, 0, NULL, 0,
                                                   NULL, 0));
}

int main(void) {
    tell("words", beachwhisk_load(text, text_length));
    tell("opened", beachwhisk_open(text, text_length, hall, BEACHWHISK_HALL_NUMBERS));
    hear("hold the lathe");
    look();
    read_both(BEACHWHISK_LIST_BYTES);
    hear("hold the drill!");
    hear("hold the the the");
    look();
    read_both(BEACHWHISK_LIST_BYTES);
    back();
    say(THE);
    say(LATHE);
    read_both(BEACHWHISK_LIST_BYTES);
    say(HOLD);
    read_both(BEACHWHISK_LIST_BYTES - 1);
    tell("cleared", beachwhisk_clear(text, text_length, hall, BEACHWHISK_HALL_NUMBERS, 0));
    back();
    odd_arguments();
    return 0;
}
