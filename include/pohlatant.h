/*
 * Pohlatant for C and C++: judges the sheet of a link, opens a run on it, and runs the link slot by slot.
 *
 * The three functions are the entry points of the proved library (crates/clib). `tools/library` writes it as
 * crates/clib/out/libclib.a, an archive for x86-64 Linux. It needs memset of the C library and nothing else.
 * docs/RULES.md says what a sheet, a verdict and a slot are. examples/c has a program.
 *
 * What a caller lends
 *
 * Every array is lent as a pointer and how many numbers or bytes it has (docs/ calls it a slice). What is proved holds
 * for callers who keep to these rules; no function can test them.
 *
 * - A pointer is not null and is aligned for its type, even where the length is 0.
 * - The whole length can be read and, without const, written.
 * - Each number was written before the call, even in an array that is only for answers. Fill a new array with 0.
 * - The arrays of a call do not overlap one another.
 * - Nothing else writes to the arrays of a call until it returns, and nothing else reads those without const.
 *
 * An array may be longer than is needed. Numbers past those that are named here stay as they were. Nothing is
 * allocated, and no pointer is kept after a call.
 *
 * What comes back
 *
 * True: there is an answer, and its first number says which. A refusal is an answer too. False: the array for the
 * answer is too short, or that for the tally; then nothing was done and nothing was written.
 *
 * Threads and stack
 *
 * The functions keep no state of their own: a run is the numbers of its array and nothing else. Several threads may
 * call them at the same time, each on arrays of its own; a sheet or offers that nobody writes to may be shared.
 *
 * pohlatant_judge and pohlatant_open need 34 KiB of stack, pohlatant_slot 0.4 KiB. Where the dynamic linker looks
 * memset up only when it is first called, the first call needs some 3 KiB more. A thread with 64 KiB has room for all.
 */
#ifndef POHLATANT_H
#define POHLATANT_H

#include <stdbool.h>
#include <stddef.h>
#include <stdint.h>

#ifdef __cplusplus
extern "C" {
#endif

/* The most that a sheet can ask for. */
#define POHLATANT_MOST_BYTES 4216    /* bytes of a sheet */
#define POHLATANT_MOST_SESSIONS 16   /* sessions of a sheet, M */
#define POHLATANT_MOST_SENT 64       /* packets that leave in a slot, c */
#define POHLATANT_MOST_SLOTS 1000000 /* slots of a run */

/* How many numbers an array must have. */
#define POHLATANT_RUN_NUMBERS 12288 /* a run */
#define POHLATANT_OUTCOME_NUMBERS 3 /* the outcomes: so many for each session */
#define POHLATANT_PACKET_NUMBERS 3  /* the packets sent: so many for each packet that can leave in a slot */
#define POHLATANT_TALLY_NUMBERS 6   /* a tally */
#define POHLATANT_ANSWER_NUMBERS 2  /* an answer to opening, or to a slot */
#define POHLATANT_JUDGED_NUMBERS 19 /* an answer to judging */

/* Refusals. Each has a place, which is 0 where nothing else is said. docs/RULES.md has the order of the tests. */
enum {
    /* The bytes are no sheet. The place is that of a byte, from 0. */
    POHLATANT_REFUSED_FEW_BYTES = 1,      /* fewer than 8 bytes */
    POHLATANT_REFUSED_LENGTH = 2,         /* the length is above 4,212 or differs from the bytes after it */
    POHLATANT_REFUSED_VERSION = 3,        /* the version is not 1 */
    POHLATANT_REFUSED_CAPACITY = 4,       /* c, the packets that leave in a slot, is not in 1..64 */
    POHLATANT_REFUSED_PERIOD = 5,         /* the period P is not in 1..16 */
    POHLATANT_REFUSED_SESSIONS = 6,       /* the number of sessions M is not in 1..16 */
    POHLATANT_REFUSED_CUT_SESSION = 7,    /* a session's bytes run past the end */
    POHLATANT_REFUSED_TABLE_LENGTH = 8,   /* the length of a table is not in P..64 */
    POHLATANT_REFUSED_RATE = 9,           /* a service rate is not in 1..256, or an envelope rate not in 0..256 */
    POHLATANT_REFUSED_VALUE = 10,         /* a value is above 500 or below the one before it, or a join falls */
    POHLATANT_REFUSED_BYTES_LEFT = 11,    /* there are bytes after the last session */
    /* The sheet does not pass. The place is the least slot count at which it fails. */
    POHLATANT_REFUSED_FAILED = 12,
    /* What is lent does not serve. */
    POHLATANT_REFUSED_SHORT_RUN = 13,     /* the run's array has fewer than POHLATANT_RUN_NUMBERS */
    POHLATANT_REFUSED_NO_RUN = 14,        /* the array holds no opened run; docs/RUN-SLICE.md has the test */
    POHLATANT_REFUSED_OFFERS = 15,        /* the offers are not one for each session */
    POHLATANT_REFUSED_SHORT_RESULTS = 16, /* fewer than 3 M numbers for outcomes, or than 3 c for packets sent */
    POHLATANT_REFUSED_SLOTS_DONE = 17,    /* POHLATANT_MOST_SLOTS are done */
    POHLATANT_REFUSED_TALLY = 18          /* one of the tally's totals would pass 4,294,967,295 */
};

/*
 * Judges a sheet: whether it passes. On a sheet that passes no packet is late, for every pattern of packets.
 *
 * bytes: the sheet, in any number of bytes. docs/RULES.md has its format.
 * answer: at least POHLATANT_JUDGED_NUMBERS, filled in as the places below say.
 */
bool pohlatant_judge(const uint8_t *bytes, size_t bytes_length, uint32_t *answer, size_t answer_length);

/*
 * Places in an answer to judging. What 1 and 2 hold goes by the case. The figures are one for each session in the order
 * of the sheet, and 0 past the last. A sheet that fails has them too; where the bytes are unreadable all are 0.
 */
enum {
    POHLATANT_JUDGED_CASE = 0,     /* one of the three cases below */
    POHLATANT_JUDGED_SLACK = 1,    /* passed: the slack, in packets */
    POHLATANT_JUDGED_SLACK_AT = 2, /* passed: the least slot count that has this slack */
    POHLATANT_JUDGED_FAILS_AT = 1, /* failed: the least slot count at which the sheet fails; place 2 has 0 */
    POHLATANT_JUDGED_REFUSAL = 1,  /* unreadable: the refusal, 1 to 11 */
    POHLATANT_JUDGED_PLACE = 2,    /* unreadable: its place */
    POHLATANT_JUDGED_FIGURES = 3   /* the first of sixteen delay figures, in slots */
};

enum {
    POHLATANT_PASSED = 0,
    POHLATANT_FAILED = 1,
    POHLATANT_UNREADABLE = 2
};

/*
 * Opens a run on a sheet that passes. A refusal leaves the run's array as it was.
 *
 * bytes: the sheet.
 * run: at least POHLATANT_RUN_NUMBERS, with any numbers in them. Opened, they are the run before its first slot.
 * answer: at least POHLATANT_ANSWER_NUMBERS: 0 and 0 where the run is opened, else the refusal, 1 to 13, and its place.
 */
bool pohlatant_open(const uint8_t *bytes, size_t bytes_length, uint32_t *run, size_t run_length,
                    uint32_t *answer, size_t answer_length);

/*
 * Does one slot of a run: takes offers in and sends packets. A refused slot is no slot: nothing but the answer changes.
 *
 * run: the run, as pohlatant_open or the slot before left it. A copy of its numbers is a run too, and goes on from
 *     where it was copied. Any other numbers are safe to lend, but nothing is promised of a slot on them.
 * offers: how many packets each session offers in this slot, a byte for each session in the order of the sheet.
 * outcomes: at least 3 M numbers, where M is the number of sessions. Three are written for each session, in the order
 *     of the sheet.
 * sent: at least 3 c numbers, where c is how many packets the link sends in a slot. Three are written for each packet
 *     that leaves, in the order in which they leave.
 * tally: at least POHLATANT_TALLY_NUMBERS, the totals of the slots so far, all 0 before the first. They are brought up
 *     to date.
 * answer: at least POHLATANT_ANSWER_NUMBERS: 0 and how many packets were sent, or the refusal, 13 to 18, and 0.
 */
bool pohlatant_slot(uint32_t *run, size_t run_length, const uint8_t *offers, size_t offers_length,
                    uint32_t *outcomes, size_t outcomes_length, uint32_t *sent, size_t sent_length,
                    uint32_t *tally, size_t tally_length, uint32_t *answer, size_t answer_length);

/* Places in an answer to opening or to a slot. */
enum {
    POHLATANT_ANSWER_REFUSAL = 0, /* 0 where it was done, else the refusal */
    POHLATANT_ANSWER_PLACE = 1,   /* refused: the place */
    POHLATANT_ANSWER_SENT = 1     /* a slot that was done: how many packets were sent */
};

/* Places in an opened run that a caller may want to read. docs/RUN-SLICE.md has the others. */
enum {
    POHLATANT_RUN_CAPACITY = 1,  /* c, the packets that leave in a slot */
    POHLATANT_RUN_PERIOD = 2,    /* the period P, in slots */
    POHLATANT_RUN_SESSIONS = 3,  /* the number of sessions M */
    POHLATANT_RUN_SLOTS_DONE = 4 /* after a slot: that slot's number */
};

/* The outcomes of the i-th session, from 0, start at POHLATANT_OUTCOME_NUMBERS * i. The three add up to its offer. */
enum {
    POHLATANT_OUTCOME_TAKEN_IN = 0, /* packets taken in */
    POHLATANT_OUTCOME_OVER = 1,     /* packets turned away, since they are over the session's envelope */
    POHLATANT_OUTCOME_NO_ROOM = 2   /* packets turned away, since the session's room is full */
};

/* The i-th packet sent, from 0, starts at POHLATANT_PACKET_NUMBERS * i. */
enum {
    POHLATANT_PACKET_SESSION = 0, /* its session, from 1 in the order of the sheet */
    POHLATANT_PACKET_NUMBER = 1,  /* its number among the packets taken in of that session, from 1 */
    POHLATANT_PACKET_DEADLINE = 2 /* the slot by the end of which it is due */
};

/* Places in a tally, in packets. */
enum {
    POHLATANT_TALLY_OFFERED = 0,
    POHLATANT_TALLY_TAKEN_IN = 1,
    POHLATANT_TALLY_OVER = 2,
    POHLATANT_TALLY_NO_ROOM = 3,
    POHLATANT_TALLY_SENT = 4,
    POHLATANT_TALLY_WAITING = 5 /* waiting at the end of the slot; the others are sums over the slots */
};

#ifdef __cplusplus
}
#endif

#endif
