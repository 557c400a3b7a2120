/* Checked examples of document 01 on pages of 8 bytes, for the hosts in C: the bytes of each
 * script, of its answers, and of both pages before and after it. */
#ifndef EXAMPLES_H
#define EXAMPLES_H

#include "fretgalaxy.h"

struct bytes {
    const uint8_t *at;
    size_t length;
};

struct example {
    const char *what;
    const char *left, *right;
    struct bytes script, answers;
    const char *left_after, *right_after;
};

#define BYTES(...) { (const uint8_t[]){ __VA_ARGS__ }, sizeof((const uint8_t[]){ __VA_ARGS__ }) }
/* A call whose numbers are below 256. */
#define CALL(kind, a, b) FRETGALAXY_##kind, a, 0, 0, 0, b, 0, 0, 0

#define MADE_2 FRETGALAXY_MADE, FRETGALAXY_MADE
#define MADE_3 MADE_2, FRETGALAXY_MADE
#define MADE_4 MADE_2, MADE_2
#define MADE_5 MADE_3, MADE_2
#define MADE_6 MADE_3, MADE_3
#define MADE_8 MADE_4, MADE_4

#define ERASED "\xFF\xFF\xFF\xFF\xFF\xFF\xFF\xFF"
/* The pages after the first save: line 3. */
#define LEFT_3 "\x00\x00\xFF\xFF\x01\x02\xFF\xFF"
#define RIGHT_3 "\x00\x00\x00\xFF\xFF\xFF\xFF\xFF"
/* The pages after the second: line 7. */
#define LEFT_7 "\x00\x00\x00\xFF\x01\x02\xFF\xFF"
#define RIGHT_7 "\x00\x00\xFF\xFF\x01\x02\x0A\x0B"
/* RIGHT after three and after four steps of the second. */
#define RIGHT_CUT_3 "\xFF\xFF\xFF\xFF\x01\x02\x0A\x0B"
#define RIGHT_CUT_4 "\x00\xFF\xFF\xFF\x01\x02\x0A\x0B"

static const struct example examples[] = {
    /* "Two erased pages, read offset 4 length 4: number 5, output FF FF FF FF." */
    { "read erased pages", ERASED, ERASED,
      BYTES(CALL(READ, 4, 4), CALL(READ_INTO, 4, 4), 1, 2, 3, 4),
      BYTES(FRETGALAXY_NO_LIVE, FRETGALAXY_OUTPUT, FRETGALAXY_NO_LIVE, 0xFF, 0xFF, 0xFF, 0xFF),
      ERASED, ERASED },

    /* "Same pages, save 01 02 at 4: five steps. LEFT .., RIGHT .., line 3." */
    { "save 01 02 at 4", ERASED, ERASED,
      BYTES(CALL(SAVE, 4, 2), 0x01, 0x02, CALL(STEPS, 6, 0)),
      BYTES(FRETGALAXY_BEGUN, MADE_5, FRETGALAXY_ENDED),
      LEFT_3, RIGHT_3 },

    /* "Then save 0A 0B at 6: six steps. LEFT .., RIGHT .., line 7." */
    { "save 0A 0B at 6", LEFT_3, RIGHT_3,
      BYTES(CALL(SAVE, 6, 2), 0x0A, 0x0B, CALL(STEPS, 7, 0)),
      BYTES(FRETGALAXY_BEGUN, MADE_6, FRETGALAXY_ENDED),
      LEFT_7, RIGHT_7 },

    /* "The same walk cut after three steps: read at 4 gives 01 02 FF FF." A step with data of
     * another length in between is 6. */
    { "cut after three steps", LEFT_3, RIGHT_3,
      BYTES(CALL(SAVE, 6, 2), 0x0A, 0x0B, CALL(STEPS, 3, 0), CALL(STEP_WITH, 0, 1), 0x0A,
            CALL(CUT, 0, 0), CALL(READ, 4, 4)),
      BYTES(FRETGALAXY_BEGUN, MADE_3, FRETGALAXY_UNFIT, FRETGALAXY_NOTHING,
            FRETGALAXY_PART, 0x01, 0x02, 0xFF, 0xFF),
      LEFT_3, RIGHT_CUT_3 },

    /* "After four: 01 02 0A 0B." */
    { "cut after four steps", LEFT_3, RIGHT_3,
      BYTES(CALL(SAVE, 6, 2), 0x0A, 0x0B, CALL(STEPS, 4, 0), CALL(CUT, 0, 0), CALL(READ, 4, 4)),
      BYTES(FRETGALAXY_BEGUN, MADE_4, FRETGALAXY_NOTHING,
            FRETGALAXY_PART, 0x01, 0x02, 0x0A, 0x0B),
      LEFT_3, RIGHT_CUT_4 },

    { "begun again after three steps", LEFT_3, RIGHT_CUT_3,
      BYTES(CALL(SAVE, 6, 2), 0x0A, 0x0B, CALL(STEPS, 7, 0), CALL(READ, 4, 4)),
      BYTES(FRETGALAXY_BEGUN, MADE_6, FRETGALAXY_ENDED, FRETGALAXY_PART, 0x01, 0x02, 0x0A, 0x0B),
      LEFT_7, RIGHT_7 },

    /* "From line 7 above, the walk whole, a format cut after one step: RIGHT .., read gives number
     * 5." */
    { "a format cut after one step", LEFT_7, RIGHT_7,
      BYTES(CALL(FORMAT, 0, 0), CALL(STEPS, 1, 0), CALL(CUT, 0, 0), CALL(READ, 4, 4)),
      BYTES(FRETGALAXY_BEGUN, FRETGALAXY_MADE, FRETGALAXY_NOTHING, FRETGALAXY_NO_LIVE),
      LEFT_7, "\x00\x00\x00\x00\x01\x02\x0A\x0B" },

    /* "Both words FFFF0000: line 0. LEFT word FFFFFF00, RIGHT word FFFFFFFF: line 0." A save on
     * these pages, which aren't erased, has C + 6 steps. */
    { "both words FFFF0000", LEFT_3, RIGHT_7,
      BYTES(CALL(READ, 4, 4), CALL(READ_INTO, 4, 4), 1, 2, 3, 4, CALL(SAVE, 4, 2), 0x01, 0x02,
            CALL(STEPS, 9, 0)),
      BYTES(FRETGALAXY_NO_LIVE, FRETGALAXY_OUTPUT, FRETGALAXY_NO_LIVE, 0xFF, 0xFF, 0xFF, 0xFF,
            FRETGALAXY_BEGUN, MADE_8, FRETGALAXY_ENDED),
      LEFT_3, RIGHT_3 },
    { "words FFFFFF00 and FFFFFFFF", "\x00\xFF\xFF\xFF\xFF\xFF\xFF\xFF", ERASED,
      BYTES(CALL(READ, 4, 4), CALL(READ_INTO, 4, 4), 1, 2, 3, 4, CALL(SAVE, 4, 2), 0x01, 0x02,
            CALL(STEPS, 9, 0)),
      BYTES(FRETGALAXY_NO_LIVE, FRETGALAXY_OUTPUT, FRETGALAXY_NO_LIVE, 0xFF, 0xFF, 0xFF, 0xFF,
            FRETGALAXY_BEGUN, MADE_8, FRETGALAXY_ENDED),
      LEFT_3, RIGHT_3 },

    /* "Offset 5 length 2: 2. Offset 3 length 2: 2, not 3. Offset 2: 3. Offset 8 length 0: 4. Offset
     * 6 length 2: legal. Offset 6 length 4: 4." */
    { "numbers 2 to 4", LEFT_3, RIGHT_3,
      BYTES(CALL(READ, 5, 2), CALL(READ, 3, 2), CALL(READ, 2, 2), CALL(READ, 8, 0),
            CALL(READ, 6, 2), CALL(READ, 6, 4)),
      BYTES(FRETGALAXY_ODD_REQUEST, FRETGALAXY_ODD_REQUEST, FRETGALAXY_IN_MANAGEMENT,
            FRETGALAXY_PAST_END, FRETGALAXY_PART, 0xFF, 0xFF, FRETGALAXY_PAST_END),
      LEFT_3, RIGHT_3 },
    { "offset 6 length 2", LEFT_3, RIGHT_3,
      BYTES(CALL(READ_INTO, 6, 2), 0x55, 0x66, CALL(SAVE, 6, 2), 0x55, 0x66),
      BYTES(FRETGALAXY_OUTPUT, FRETGALAXY_NO_NUMBER, 0xFF, 0xFF, FRETGALAXY_BEGUN),
      LEFT_3, RIGHT_3 },

    /* "With no walk it is no call and changes nothing": at first, after a beginning that is
     * refused, and after a cut. */
    { "steps with no walk", ERASED, ERASED,
      BYTES(CALL(STEPS, 7, 0)),
      BYTES(FRETGALAXY_NOTHING, FRETGALAXY_NOTHING, FRETGALAXY_NOTHING, FRETGALAXY_NOTHING,
            FRETGALAXY_NOTHING, FRETGALAXY_NOTHING, FRETGALAXY_NOTHING),
      ERASED, ERASED },
    { "steps after a refused save", LEFT_3, RIGHT_3,
      BYTES(CALL(SAVE, 3, 0), CALL(STEPS, 1, 0), CALL(STEP_WITH, 0, 1), 0x0A),
      BYTES(FRETGALAXY_ODD_REQUEST, FRETGALAXY_NOTHING, FRETGALAXY_NOTHING),
      LEFT_3, RIGHT_3 },
    { "steps after a cut", LEFT_3, RIGHT_3,
      BYTES(CALL(FORMAT, 0, 0), CALL(CUT, 0, 0), CALL(STEPS, 2, 0), CALL(STEP_WITH, 0, 0)),
      BYTES(FRETGALAXY_BEGUN, FRETGALAXY_NOTHING, FRETGALAXY_NOTHING, FRETGALAXY_NOTHING,
            FRETGALAXY_NOTHING),
      LEFT_3, RIGHT_3 },
};

enum { EXAMPLES = sizeof examples / sizeof examples[0] };

#endif
