/* What the benchmark calls, under three names: bench_ (the proved library: crates/bench,
 * crates/bench_saves and crates/bench_formats), c_ (plain.c) and rust_ (plain.rs). All take the same
 * arguments and give the same answers. A slice of the library's is a pointer and a length. */
#ifndef PLAIN_H
#define PLAIN_H

#include <stdbool.h>
#include <stddef.h>
#include <stdint.h>

/* A read of a part: how many bytes, and the first of them (0: none). It is empty on every refusal. */
struct part {
    size_t length;
    uint8_t first;
};

/* The beginning of a save: the number (0: begun), and the line and erased-or-not that the walk then
 * keeps. What else it keeps the caller gave. */
struct start {
    uint8_t number, line;
    bool erased;
};

/* A whole walk: the number (0: walked to its end), and how many steps were made. */
struct whole {
    uint32_t number, steps;
};

/* The answers of a step. */
enum { MADE = 0, ENDED = 1, UNFIT = 6 };

#endif
