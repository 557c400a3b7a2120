/* A host in C: replays all checked examples of document 01, pages of number 1, refused scripts,
 * empty and null buffers, and a sample of pages and calls through include/fretgalaxy.h and compares
 * answers, pages and what must be kept. Its last line says whether all were as expected; its status
 * is 0 only then. */
#include <stdio.h>
#include <string.h>

#include "examples.h"
#include "fretgalaxy.h"

enum { LONGEST = FRETGALAXY_MAX_PAGE, CELLS = FRETGALAXY_MAX_IMAGE / 2, MOST_STEPS = CELLS + 6 };

static uint8_t left[LONGEST + 8], right[LONGEST + 8], script[LONGEST + 256], out[LONGEST + 256];
static size_t used;
static int wrong, compared;
/* Whether a buffer of length 0 is lent as a null pointer. */
static int nulls;

static void number(uint32_t n)
{
    for (int i = 0; i < 4; i++)
        script[used++] = (uint8_t)(n >> (8 * i));
}

static void call(uint8_t kind, uint32_t a, uint32_t b)
{
    script[used++] = kind;
    number(a);
    number(b);
}

static void call_with(uint8_t kind, uint32_t a, const void *bytes, uint32_t b)
{
    call(kind, a, b);
    memcpy(script + used, bytes, b);
    used += b;
}

/* At most 16 bytes are told, from the first that differs on. */
static void same(const char *what, const uint8_t *got, const void *wanted, size_t n)
{
    const uint8_t *w = wanted;
    size_t at = 0;

    compared++;
    while (at < n && got[at] == w[at])
        at++;
    if (at == n)
        return;
    wrong++;
    printf("%s: from byte %zu on got", what, at);
    for (size_t i = at; i < n && i < at + 16; i++)
        printf(" %02X", got[i]);
    printf(", wanted");
    for (size_t i = at; i < n && i < at + 16; i++)
        printf(" %02X", w[i]);
    printf("\n");
}

static uint8_t *lent(uint8_t *buffer, size_t length)
{
    return nulls && length == 0 ? NULL : buffer;
}

/* Replays the script on pages of these lengths. The output is AA before; what lies behind the
 * answers must be so after it, and the script and what lies behind the pages as they were. */
static void replay(const char *what, size_t p, size_t q, size_t room, uint32_t status, size_t place,
                   const void *answers)
{
    static uint8_t left_was[sizeof left], right_was[sizeof right], script_was[sizeof script];
    static uint8_t kept[sizeof out];

    memset(out, 0xAA, sizeof out);
    memset(kept, 0xAA, sizeof kept);
    memcpy(left_was, left, sizeof left);
    memcpy(right_was, right, sizeof right);
    memcpy(script_was, script, sizeof script);
    struct fretgalaxy_report report = fretgalaxy_replay(
        lent(left, p), p, lent(right, q), q, lent(script, used), used, lent(out, room), room);
    compared++;
    if (report.status != status || report.place != place) {
        printf("%s: status %u, place %zu, wanted status %u, place %zu\n", what,
               (unsigned)report.status, report.place, (unsigned)status, place);
        wrong++;
    }
    size_t n = status == FRETGALAXY_REPLAYED ? place : 0;
    same(what, out, answers, n);
    same(what, out + n, kept, sizeof out - n);
    same(what, script, script_was, sizeof script);
    same(what, left + p, left_was + p, sizeof left - p);
    same(what, right + q, right_was + q, sizeof right - q);
    used = 0;
}

/* Pages of 8 bytes. */
static void start(const char *l, const char *r)
{
    memcpy(left, l, 8);
    memcpy(right, r, 8);
}

static void pages(const char *what, const char *l, const char *r)
{
    same(what, left, l, 8);
    same(what, right, r, 8);
}

/* Pages of P bytes that are erased but for the management words. */
static void start_words(size_t p, const char *l, const char *r)
{
    memset(left, 0xFF, p);
    memset(right, 0xFF, p);
    memcpy(left, l, 4);
    memcpy(right, r, 4);
}

static void checked_examples(void)
{
    for (size_t i = 0; i < EXAMPLES; i++) {
        const struct example *x = &examples[i];

        start(x->left, x->right);
        memcpy(script, x->script.at, x->script.length);
        used = x->script.length;
        replay(x->what, 8, 8, sizeof out, FRETGALAXY_REPLAYED, x->answers.length, x->answers.at);
        pages(x->what, x->left_after, x->right_after);
    }
}

/* A part, an output and a save with these numbers, on pages of P bytes at line 3. */
static void refused(size_t p, uint32_t offset, uint32_t length, uint8_t no)
{
    static const uint8_t bytes[4] = { 0x55, 0x66, 0x77, 0x88 };
    uint8_t answers[8] = { no, FRETGALAXY_OUTPUT, no, 0x55, 0x66, 0x77, 0x88 };
    static uint8_t l[sizeof left], r[sizeof right];
    char what[64];

    snprintf(what, sizeof what, "P %zu, offset %u, length %u", p, (unsigned)offset,
             (unsigned)length);
    start_words(p, "\x00\x00\xFF\xFF", "\x00\x00\x00\xFF");
    memcpy(l, left, p);
    memcpy(r, right, p);
    answers[3 + length] = no;
    call(FRETGALAXY_READ, offset, length);
    call_with(FRETGALAXY_READ_INTO, offset, bytes, length);
    call_with(FRETGALAXY_SAVE, offset, bytes, length);
    replay(what, p, p, sizeof out, FRETGALAXY_REPLAYED, 4 + length, answers);
    same(what, left, l, p);
    same(what, right, r, p);
}

static void numbers(void)
{
    /* "Offset 5 length 2: 2. Offset 3 length 2: 2, not 3. Offset 2: 3. Offset 8 length 0: 4. Offset
     * 6 length 4: 4." */
    refused(8, 5, 2, FRETGALAXY_ODD_REQUEST);
    refused(8, 3, 2, FRETGALAXY_ODD_REQUEST);
    refused(8, 2, 2, FRETGALAXY_IN_MANAGEMENT);
    refused(8, 2, 0, FRETGALAXY_IN_MANAGEMENT);
    refused(8, 8, 0, FRETGALAXY_PAST_END);
    refused(8, 6, 4, FRETGALAXY_PAST_END);

    /* "P of 6 or 4,098: 1." */
    refused(FRETGALAXY_MIN_PAGE - 2, 4, 2, FRETGALAXY_PAGE_LENGTH);
    refused(LONGEST + 2, 4, 2, FRETGALAXY_PAGE_LENGTH);
}

static void long_pages(void)
{
    static uint8_t answers[1 + MOST_STEPS + 1], image[2 * CELLS];

    /* "P of 4,096: C is 2,046": of a save on erased pages the step before the last cell, that of
     * the last cell, and the deciding store behind it. */
    memset(answers, FRETGALAXY_MADE, sizeof answers);
    answers[0] = FRETGALAXY_BEGUN;
    for (size_t i = 0; i < sizeof image; i++)
        image[i] = (uint8_t)(i % 251);
    for (uint32_t steps = CELLS - 1; steps <= CELLS + 1; steps++) {
        start_words(LONGEST, "\xFF\xFF\xFF\xFF", "\xFF\xFF\xFF\xFF");
        call_with(FRETGALAXY_SAVE, 4, image, sizeof image);
        call(FRETGALAXY_STEPS, steps, 0);
        replay("C is 2,046", LONGEST, LONGEST, 1 + steps, FRETGALAXY_REPLAYED, 1 + steps, answers);
        same("C is 2,046: cell 0", left, steps == CELLS + 1 ? "\x00\x00\xFF\xFF" : ERASED, 4);
        same("C is 2,046: the cells", left + 4, image, sizeof image - 2);
        same("C is 2,046: the last cell", left + LONGEST - 2,
             steps == CELLS - 1 ? (const uint8_t *)ERASED : image + sizeof image - 2, 2);
    }

    /* "At most 2,052 steps": from line 5, and step 2,053 says ended. The pages are then line 3. */
    start_words(LONGEST, "\x00\x00\xFF\xFF", "\x00\xFF\xFF\xFF");
    memcpy(right + 4, image, sizeof image);
    call_with(FRETGALAXY_SAVE, 4, "\x0A\x0B", 2);
    call(FRETGALAXY_STEPS, MOST_STEPS + 1, 0);
    uint8_t all[sizeof answers];
    memcpy(all, answers, sizeof answers);
    all[MOST_STEPS + 1] = FRETGALAXY_ENDED;
    replay("2,052 steps", LONGEST, LONGEST, sizeof all, FRETGALAXY_REPLAYED, sizeof all, all);
    same("2,052 steps: LEFT word", left, "\x00\x00\xFF\xFF\x0A\x0B", 6);
    same("2,052 steps: LEFT", left + 6, image + 2, sizeof image - 2);
    same("2,052 steps: RIGHT word", right, "\x00\x00\x00\xFF", 4);
    same("2,052 steps: RIGHT", right + 4, image, sizeof image);
}

static void refused_scripts(void)
{
    static const uint8_t number_1[] = {
        FRETGALAXY_PAGE_LENGTH, FRETGALAXY_PAGE_LENGTH, FRETGALAXY_NOTHING, FRETGALAXY_PAGE_LENGTH,
        FRETGALAXY_OUTPUT, FRETGALAXY_PAGE_LENGTH, 0x55, 0x66
    };

    start(LEFT_3, RIGHT_3);
    call_with(FRETGALAXY_SAVE, 4, "\x01\x02", 2);
    call(FRETGALAXY_FORMAT, 0, 0);
    call(FRETGALAXY_STEPS, 1, 0);
    call(FRETGALAXY_READ, 4, 2);
    call_with(FRETGALAXY_READ_INTO, 4, "\x55\x66", 2);
    replay("pages of 8 and 10 bytes", 8, 10, sizeof out, FRETGALAXY_REPLAYED, sizeof number_1,
           number_1);

    call(FRETGALAXY_CUT, 0, 0);
    call(FRETGALAXY_CUT + 1, 0, 0);
    replay("no such kind", 8, 8, sizeof out, FRETGALAXY_MALFORMED, FRETGALAXY_CALL_SIZE, "");
    call(FRETGALAXY_FORMAT, 0, 0);
    call(FRETGALAXY_STEPS, 3, 0);
    replay("no room for three answers", 8, 8, 3, FRETGALAXY_NO_ROOM, FRETGALAXY_CALL_SIZE, "");
    call(FRETGALAXY_READ, 4, FRETGALAXY_MAX_IMAGE);
    replay("no room for an image", 8, 8, FRETGALAXY_MAX_IMAGE, FRETGALAXY_NO_ROOM, 0, "");
    call(FRETGALAXY_READ, 4, FRETGALAXY_MAX_IMAGE + 2);
    replay("room for a number", 8, 8, 1, FRETGALAXY_REPLAYED, 1, "\x04");
    replay("an empty script", 8, 8, sizeof out, FRETGALAXY_REPLAYED, 0, "");
    pages("refused scripts", LEFT_3, RIGHT_3);
}

/* A buffer of length 0 may be null. Every choice of empty buffers among the four: with an empty
 * page the calls are answered with number 1, and with an empty output the first has no room. */
static void empty_buffers(void)
{
    static const uint8_t answers[] = {
        FRETGALAXY_BEGUN, FRETGALAXY_MADE, FRETGALAXY_PART, 0x01, 0x02,
        FRETGALAXY_OUTPUT, FRETGALAXY_NO_NUMBER, 0x01, 0x02, FRETGALAXY_NOTHING
    };
    static const uint8_t number_1[] = {
        FRETGALAXY_PAGE_LENGTH, FRETGALAXY_NOTHING, FRETGALAXY_PAGE_LENGTH,
        FRETGALAXY_OUTPUT, FRETGALAXY_PAGE_LENGTH, 0x55, 0x66, FRETGALAXY_NOTHING
    };

    for (int empty = 0; empty < 16; empty++) {
        size_t p = empty & 1 ? 0 : 8, q = empty & 2 ? 0 : 8, room = empty & 8 ? 0 : sizeof out;
        int legal = p == 8 && q == 8, filled = !(empty & 4), made = filled && room > 0;
        size_t length = legal ? sizeof answers : sizeof number_1;
        char what[64];

        snprintf(what, sizeof what, "%s buffers, choice %d", nulls ? "null" : "empty", empty);
        start(LEFT_3, RIGHT_3);
        if (filled) {
            call_with(FRETGALAXY_SAVE, 4, "\x01\x02", 2);
            call(FRETGALAXY_STEPS, 1, 0);
            call(FRETGALAXY_READ, 4, 2);
            call_with(FRETGALAXY_READ_INTO, 4, "\x55\x66", 2);
            call(FRETGALAXY_CUT, 0, 0);
        }
        replay(what, p, q, room, filled && !made ? FRETGALAXY_NO_ROOM : FRETGALAXY_REPLAYED,
               made ? length : 0, legal ? answers : number_1);
        pages(what, LEFT_3, legal && made ? ERASED : RIGHT_3);

        /* no step, which needs no room, and then a call that needs some */
        call(FRETGALAXY_STEPS, 0, 0);
        replay(what, p, q, room, FRETGALAXY_REPLAYED, 0, "");
        call(FRETGALAXY_STEPS, 0, 0);
        call(FRETGALAXY_READ_INTO, 4, 0);
        replay(what, p, q, room, room > 0 ? FRETGALAXY_REPLAYED : FRETGALAXY_NO_ROOM,
               room > 0 ? 2 : FRETGALAXY_CALL_SIZE, legal ? "\x21\x00" : "\x21\x01");
    }
}

/* A script is replayed on equal pages twice: report, answers and pages are the same. */
static void twice(const char *what, const uint8_t *l, const uint8_t *r)
{
    uint8_t lefts[2][8], rights[2][8], outs[2][64];
    struct fretgalaxy_report reports[2];

    memset(outs, 0xAA, sizeof outs);
    for (int i = 0; i < 2; i++) {
        memcpy(lefts[i], l, 8);
        memcpy(rights[i], r, 8);
        reports[i] = fretgalaxy_replay(lefts[i], 8, rights[i], 8, script, used, outs[i], 64);
    }
    compared++;
    if (reports[0].status != FRETGALAXY_REPLAYED || reports[1].status != FRETGALAXY_REPLAYED
        || reports[0].place != reports[1].place) {
        printf("%s: the reports of two replays\n", what);
        wrong++;
    }
    same(what, outs[0], outs[1], sizeof outs[0]);
    same(what, lefts[0], lefts[1], 8);
    same(what, rights[0], rights[1], 8);
    used = 0;
}

/* Pairs of words, erased behind them or not, with no walk in hand or one of each kind some steps
 * on, and then every kind of call. Each byte that the library has written is looked at, so that
 * valgrind tells of any that was never set. */
static void sample(void)
{
    static const uint8_t words[6][4] = {
        { 0xFF, 0xFF, 0xFF, 0xFF }, { 0x00, 0xFF, 0xFF, 0xFF }, { 0x00, 0x00, 0xFF, 0xFF },
        { 0x00, 0x00, 0x00, 0xFF }, { 0xFF, 0xFF, 0x00, 0xFF }, { 0x12, 0x34, 0x56, 0x78 }
    };

    for (int i = 0; i < 6 * 6 * 2 * 4 * 4; i++) {
        const uint8_t *word_l = words[i % 6], *word_r = words[i / 6 % 6];
        int clean = i / 36 % 2, hand = i / 72 % 4;
        uint32_t steps = (uint32_t)(i / 288) * 2;
        uint8_t l[8], r[8];
        char what[64];

        snprintf(what, sizeof what, "sample %d", i);
        memset(l, clean ? 0xFF : 0x5A, 8);
        memset(r, clean ? 0xFF : 0xA5, 8);
        memcpy(l, word_l, 4);
        memcpy(r, word_r, 4);
        if (hand == 1)
            call_with(FRETGALAXY_SAVE, 4, "\x01\x02\x03\x04", 4);
        if (hand == 2)
            call(FRETGALAXY_FORMAT, 0, 0);
        if (hand == 3)
            call_with(FRETGALAXY_SAVE, 8, "\x01\x02", 2);
        call(FRETGALAXY_STEPS, steps, 0);
        call_with(FRETGALAXY_STEP_WITH, 0, "\x05\x06\x07\x08", 4);
        call_with(FRETGALAXY_STEP_WITH, 0, "", 0);
        call(FRETGALAXY_READ, 4, 4);
        call_with(FRETGALAXY_READ_INTO, 4, "\x55\x66\x77\x88", 4);
        call_with(FRETGALAXY_SAVE, 6, "\x09\x0A", 2);
        call(FRETGALAXY_STEPS, steps, 0);
        call(FRETGALAXY_FORMAT, 0, 0);
        call(FRETGALAXY_STEPS, 1, 0);
        call(FRETGALAXY_CUT, 0, 0);
        call(FRETGALAXY_STEPS, 2, 0);
        call(FRETGALAXY_READ, 4, 4);
        twice(what, l, r);
    }
}

int main(void)
{
    memset(left, 0xFF, sizeof left);
    memset(right, 0xFF, sizeof right);

    checked_examples();
    numbers();
    long_pages();
    refused_scripts();
    empty_buffers();
    nulls = 1;
    empty_buffers();
    nulls = 0;
    sample();

    if (wrong == 0)
        printf("host: all %d comparisons are as document 01 gives them\n", compared);
    else
        printf("host: %d of %d comparisons are WRONG\n", wrong, compared);
    return wrong != 0;
}
