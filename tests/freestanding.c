/* A host without a C library: its own memset and memmove, and write and exit as calls of Linux. It
 * replays the examples of examples.h through include/fretgalaxy.h and compares report, answers and
 * pages byte by byte. It prints a line at each difference; its status is 0 only if there is none.
 */
#include "examples.h"
#include "fretgalaxy.h"

enum { P = 8, ROOM = 32, KEPT = 0xAA };

/* ---- the two functions that the library calls. Their bytes are volatile, since a plain loop could
 * be compiled into a call of the function that it stands in. */
void *memset(void *to, int value, size_t n);
void *memmove(void *to, const void *from, size_t n);

void *memset(void *to, int value, size_t n)
{
    volatile unsigned char *t = to;

    for (size_t i = 0; i < n; i++)
        t[i] = (unsigned char)value;
    return to;
}

void *memmove(void *to, const void *from, size_t n)
{
    volatile unsigned char *t = to;
    const volatile unsigned char *f = from;

    if ((uintptr_t)to <= (uintptr_t)from)
        for (size_t i = 0; i < n; i++)
            t[i] = f[i];
    else
        for (size_t i = n; i > 0; i--)
            t[i - 1] = f[i - 1];
    return to;
}

/* ---- what is printed */
enum { WRITE = 1, EXIT = 60, STANDARD_OUTPUT = 1 };

static long system_call(long number, long a, long b, long c)
{
    long result;

    __asm__ volatile("syscall"
                     : "=a"(result)
                     : "a"(number), "D"(a), "S"(b), "d"(c)
                     : "rcx", "r11", "memory");
    return result;
}

static void print(const char *text)
{
    size_t n = 0;

    while (text[n] != 0)
        n++;
    system_call(WRITE, STANDARD_OUTPUT, (long)(uintptr_t)text, (long)n);
}

static void print_number(size_t n)
{
    char digits[24];
    size_t at = sizeof digits - 1;

    digits[at] = 0;
    do {
        digits[--at] = (char)('0' + n % 10);
        n /= 10;
    } while (n > 0);
    print(digits + at);
}

/* ---- replayed and compared */
static size_t wrong;

static void same(const char *what, const char *which, const uint8_t *got, const void *wanted,
                 size_t n)
{
    const uint8_t *w = wanted;

    for (size_t i = 0; i < n; i++)
        if (got[i] != w[i]) {
            print("freestanding host: ");
            print(what);
            print(": ");
            print(which);
            print(": byte ");
            print_number(i);
            print(" is ");
            print_number(got[i]);
            print(", wanted ");
            print_number(w[i]);
            print("\n");
            wrong++;
            return;
        }
}

static void replay(const struct example *x)
{
    static uint8_t left[P], right[P], out[ROOM], kept[ROOM];

    memmove(left, x->left, P);
    memmove(right, x->right, P);
    memset(out, KEPT, ROOM);
    memset(kept, KEPT, ROOM);
    struct fretgalaxy_report report = fretgalaxy_replay(
        left, P, right, P, x->script.at, x->script.length, out, ROOM);
    if (report.status != FRETGALAXY_REPLAYED || report.place != x->answers.length) {
        print("freestanding host: ");
        print(x->what);
        print(": status ");
        print_number(report.status);
        print(", place ");
        print_number(report.place);
        print(", wanted status 0, place ");
        print_number(x->answers.length);
        print("\n");
        wrong++;
    }
    same(x->what, "answers", out, x->answers.at, x->answers.length);
    same(x->what, "behind the answers", out + x->answers.length, kept, ROOM - x->answers.length);
    same(x->what, "LEFT", left, x->left_after, P);
    same(x->what, "RIGHT", right, x->right_after, P);
}

__attribute__((noreturn, force_align_arg_pointer)) void _start(void);

void _start(void)
{
    for (size_t i = 0; i < EXAMPLES; i++)
        replay(&examples[i]);
    if (wrong == 0) {
        print("freestanding host: all ");
        print_number(EXAMPLES);
        print(" examples are as document 01 gives them\n");
    } else {
        print("freestanding host: ");
        print_number(wrong);
        print(" comparisons are WRONG\n");
    }
    for (;;)
        system_call(EXIT, wrong != 0, 0, 0);
}
