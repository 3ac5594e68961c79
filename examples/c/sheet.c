/* The README's worked example in C: judges the sheet, opens a run, runs four slots, and prints what slotrun prints. */
#include <inttypes.h>
#include <stdio.h>
#include <stdlib.h>

#include "pohlatant.h"

#define LENGTH(array) (sizeof(array) / sizeof((array)[0]))

enum { SESSIONS = 2, SLOTS = 4 };

static const uint8_t sheet[] = {
    0x00, 0x00, 0x00, 0x22,                         /* 34 bytes follow */
    0x01, 0x01, 0x02, 0x02,                         /* version 1, c = 1, P = 2, two sessions */
    0x02, 0x02, 0x03, 0x00, 0x01, 0x00, 0x01,       /* gauge 1: tables of 2 and 2 values, room 4, both rates 1 */
    0x00, 0x00, 0x00, 0x01, 0x00, 0x02, 0x00, 0x02, /* its service 0, 1 and its envelope 2, 2 */
    0x02, 0x02, 0x03, 0x00, 0x01, 0x00, 0x01,       /* gauge 2, with the same lengths, room and rates */
    0x00, 0x01, 0x00, 0x01, 0x00, 0x02, 0x00, 0x02, /* its service 1, 1 and its envelope 2, 2 */
};
static const uint8_t offers[SLOTS][SESSIONS] = {{2, 2}, {0, 0}, {0, 0}, {0, 0}};

static uint32_t run[POHLATANT_RUN_NUMBERS]; /* 48 KiB: not for a small stack */

/* Ends the program where a call was not answered, since an array is too short, or was refused. */
static void check(bool answered, uint32_t refusal, uint32_t place) {
    if (!answered) {
        fputs("an array is too short\n", stderr);
        exit(EXIT_FAILURE);
    }
    if (refusal != 0) {
        printf("refused %" PRIu32 " %" PRIu32 "\n", refusal, place);
        exit(EXIT_FAILURE);
    }
}

static void print(const uint32_t *numbers, size_t count) {
    for (size_t i = 0; i < count; i++) {
        printf(" %" PRIu32, numbers[i]);
    }
    putchar('\n');
}

int main(void) {
    uint32_t judged[POHLATANT_JUDGED_NUMBERS] = {0};
    uint32_t answer[POHLATANT_ANSWER_NUMBERS] = {0};
    uint32_t outcomes[POHLATANT_OUTCOME_NUMBERS * SESSIONS] = {0};
    uint32_t sent[POHLATANT_PACKET_NUMBERS * POHLATANT_MOST_SENT] = {0};
    uint32_t tally[POHLATANT_TALLY_NUMBERS] = {0};

    bool answered = pohlatant_judge(sheet, LENGTH(sheet), judged, LENGTH(judged));
    check(answered, 0, 0);
    if (judged[POHLATANT_JUDGED_CASE] == POHLATANT_PASSED) {
        printf("passed %" PRIu32 " %" PRIu32, judged[POHLATANT_JUDGED_SLACK], judged[POHLATANT_JUDGED_SLACK_AT]);
        print(&judged[POHLATANT_JUDGED_FIGURES], SESSIONS);
    }

    /* A sheet that did not pass is refused here, with the same reason. */
    answered = pohlatant_open(sheet, LENGTH(sheet), run, LENGTH(run), answer, LENGTH(answer));
    check(answered, answer[POHLATANT_ANSWER_REFUSAL], answer[POHLATANT_ANSWER_PLACE]);

    for (size_t slot = 0; slot < SLOTS; slot++) {
        answered = pohlatant_slot(run, LENGTH(run), offers[slot], SESSIONS, outcomes, LENGTH(outcomes), sent,
                                  LENGTH(sent), tally, LENGTH(tally), answer, LENGTH(answer));
        check(answered, answer[POHLATANT_ANSWER_REFUSAL], answer[POHLATANT_ANSWER_PLACE]);
        for (size_t i = 0; i < answer[POHLATANT_ANSWER_SENT]; i++) {
            printf("%" PRIu32, run[POHLATANT_RUN_SLOTS_DONE]);
            print(&sent[POHLATANT_PACKET_NUMBERS * i], POHLATANT_PACKET_NUMBERS);
        }
    }

    printf("total");
    print(tally, LENGTH(tally));
    return EXIT_SUCCESS;
}
