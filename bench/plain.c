/* Document 01 in plain C, as firmware would have it: a function a rule, and every check in every
 * step. It answers what the proved library answers; bench/main.rs compares both before it measures. */
#include <string.h>

#include "plain.h"

enum { MANAGEMENT = 4, LEAST_PAGE = 8, MOST_PAGE = 4096 };

enum side { LEFT, RIGHT, NOWHERE };

/* ---- cells and pages */

static uint16_t cell_at(const uint8_t *bytes, size_t at)
{
    return (uint16_t)(bytes[at] | bytes[at + 1] << 8);
}

static bool fits(uint16_t old, uint16_t value)
{
    return (old & value) == value;
}

static bool program(uint8_t *bytes, size_t at, uint16_t value)
{
    uint16_t old = cell_at(bytes, at);
    if (!fits(old, value))
        return false;
    uint16_t kept = old & value;
    bytes[at] = (uint8_t)kept;
    bytes[at + 1] = (uint8_t)(kept >> 8);
    return true;
}

static void erase(uint8_t *page, size_t p)
{
    memset(page, 0xFF, p);
}

static bool is_erased(const uint8_t *page, size_t p)
{
    for (size_t i = 0; i < p; i++)
        if (page[i] != 0xFF)
            return false;
    return true;
}

static uint32_t word_of(const uint8_t *page)
{
    return page[0] | page[1] << 8 | page[2] << 16 | (uint32_t)page[3] << 24;
}

/* ---- lines */

static const struct row {
    uint32_t left, right;
    uint8_t line;
    enum side live;
} rows[9] = {
    {0xFFFF0000, 0xFFFFFFFF, 1, LEFT},
    {0xFFFF0000, 0xFF00FFFF, 2, LEFT},
    {0xFFFF0000, 0xFF000000, 3, LEFT},
    {0xFFFF0000, 0xFFFFFF00, 5, RIGHT},
    {0xFF000000, 0xFFFFFF00, 6, RIGHT},
    {0xFF000000, 0xFFFF0000, 7, RIGHT},
    {0xFFFFFFFF, 0xFFFF0000, 8, RIGHT},
    {0xFFFFFF00, 0xFFFF0000, 9, LEFT},
    {0xFFFFFF00, 0xFF000000, 10, LEFT},
};

static uint32_t line_of(const uint8_t *left, const uint8_t *right)
{
    uint32_t l = word_of(left), r = word_of(right);
    for (int i = 0; i < 9; i++)
        if (rows[i].left == l && rows[i].right == r)
            return rows[i].line;
    return 0;
}

static enum side live_of(uint32_t line)
{
    for (int i = 0; i < 9; i++)
        if (rows[i].line == line)
            return rows[i].live;
    return NOWHERE;
}

static bool in_table(uint32_t line)
{
    return line == 0 || live_of(line) != NOWHERE;
}

/* ---- numbers 1 to 5 */

static uint32_t pages_number(size_t p, size_t q)
{
    return p != q || p % 2 != 0 || p < LEAST_PAGE || p > MOST_PAGE ? 1 : 0;
}

static uint32_t request_number(size_t p, size_t q, uint32_t offset, size_t length)
{
    if (pages_number(p, q) != 0)
        return 1;
    if (offset % 2 != 0 || length % 2 != 0)
        return 2;
    if (offset < MANAGEMENT)
        return 3;
    if (offset >= p || length > p - offset)
        return 4;
    return 0;
}

static uint32_t read_number(const uint8_t *left, size_t p, const uint8_t *right, size_t q,
                            uint32_t offset, size_t length, const uint8_t **live)
{
    uint32_t number = request_number(p, q, offset, length);
    if (number != 0)
        return number;
    enum side side = live_of(line_of(left, right));
    if (side == NOWHERE)
        return 5;
    *live = side == LEFT ? left : right;
    return 0;
}

/* ---- the list of steps */

enum kind { SAVE, FORMAT };

struct walk {
    enum kind kind;
    uint32_t line;
    bool erased;
    uint32_t page, offset, length, place;
};

enum what { PROGRAM, CELL, ERASE };

/* An entry of the list: the line before it, what it does, the side, the cell and its number. */
struct entry {
    uint32_t line;
    enum what what;
    enum side side;
    uint32_t cell;
    uint16_t value;
};

static bool erased_counts(enum kind kind, uint32_t line)
{
    return line == 0 || (kind == SAVE && (line == 1 || line == 8));
}

static enum side other(enum side side)
{
    return side == LEFT ? RIGHT : LEFT;
}

static uint32_t cells_of(uint32_t page)
{
    return (page - MANAGEMENT) / 2;
}

/* How many steps a save makes before its image cells. */
static uint32_t steps_before(uint32_t line, bool erased)
{
    switch (line) {
    case 0:
        return erased ? 0 : 3;
    case 1:
    case 8:
        return erased ? 0 : 1;
    case 3:
    case 7:
        return 1;
    case 2:
    case 6:
    case 10:
        return 2;
    default:
        return 3;
    }
}

static bool taken_as_erased(const struct walk *walk)
{
    return walk->erased && erased_counts(walk->kind, walk->line);
}

static uint32_t total_of(const struct walk *walk)
{
    bool erased = taken_as_erased(walk);
    if (walk->kind == FORMAT)
        return erased ? 0 : 3;
    return steps_before(walk->line, erased) + cells_of(walk->page) + 3;
}

/* The three steps that leave two erased pages; the line before the first is the pages' own. */
static struct entry clearing(uint32_t line, uint32_t place)
{
    switch (place) {
    case 0:
        return (struct entry){line, PROGRAM, RIGHT, 2, 0x0000};
    case 1:
        return (struct entry){0, ERASE, LEFT, 0, 0};
    default:
        return (struct entry){0, ERASE, RIGHT, 0, 0};
    }
}

/* Tidying, then the erase of the page that isn't live. */
static struct entry step_before(uint32_t line, uint32_t place)
{
    for (;;) {
        struct entry entry;
        uint32_t next;
        switch (line) {
        case 2:
            entry = (struct entry){2, PROGRAM, RIGHT, 0, 0x0000}, next = 3;
            break;
        case 5:
            entry = (struct entry){5, PROGRAM, LEFT, 2, 0xFF00}, next = 6;
            break;
        case 6:
            entry = (struct entry){6, PROGRAM, RIGHT, 0, 0x0000}, next = 7;
            break;
        case 9:
            entry = (struct entry){9, PROGRAM, RIGHT, 2, 0xFF00}, next = 10;
            break;
        case 10:
            entry = (struct entry){10, PROGRAM, LEFT, 0, 0x0000}, next = 3;
            break;
        default:
            return (struct entry){line, ERASE, other(live_of(line)), 0, 0};
        }
        if (place == 0)
            return entry;
        line = next;
        place--;
    }
}

/* The deciding store and the two marks after it, where a page was live. */
static struct entry mark_after(enum side live, uint32_t place)
{
    switch (place) {
    case 0:
        return (struct entry){live == LEFT ? 1 : 8, PROGRAM, other(live), 0, 0xFF00};
    case 1:
        return (struct entry){live == LEFT ? 5 : 9, PROGRAM, live, 2, 0xFF00};
    default:
        return (struct entry){live == LEFT ? 6 : 10, PROGRAM, other(live), 0, 0x0000};
    }
}

/* The same at line 0. */
static struct entry first_mark(uint32_t place)
{
    switch (place) {
    case 0:
        return (struct entry){0, PROGRAM, LEFT, 0, 0x0000};
    case 1:
        return (struct entry){1, PROGRAM, RIGHT, 2, 0xFF00};
    default:
        return (struct entry){2, PROGRAM, RIGHT, 0, 0x0000};
    }
}

static struct entry entry_at(const struct walk *walk)
{
    uint32_t place = walk->place;
    if (walk->kind == FORMAT)
        return clearing(walk->line, place);
    uint32_t before = steps_before(walk->line, taken_as_erased(walk));
    if (place < before)
        return walk->line == 0 ? clearing(0, place) : step_before(walk->line, place);
    place -= before;
    enum side live = live_of(walk->line);
    if (place < cells_of(walk->page)) {
        if (live == NOWHERE)
            return (struct entry){0, CELL, LEFT, 2 * place, 0};
        return (struct entry){live == LEFT ? 1 : 8, CELL, other(live), 2 * place, 0};
    }
    place -= cells_of(walk->page);
    return live == NOWHERE ? first_mark(place) : mark_after(live, place);
}

/* A cell of the new image: that of the data, else that of the live image, else FFFF. */
static uint16_t new_cell(const struct walk *walk, const uint8_t *left, const uint8_t *right,
                         const uint8_t *data, uint32_t at)
{
    uint32_t offset = walk->offset - MANAGEMENT;
    if (at >= offset && at - offset < walk->length)
        return cell_at(data, at - offset);
    if (walk->line == 0)
        return 0xFFFF;
    return cell_at((live_of(walk->line) == LEFT ? left : right) + MANAGEMENT, at);
}

/* ---- beginning and stepping */

/* Gives the number, or 0 and the walk. */
static uint32_t begin(enum kind kind, const uint8_t *left, size_t p, const uint8_t *right, size_t q,
                      uint32_t offset, size_t length, struct walk *walk)
{
    uint32_t number = kind == SAVE ? request_number(p, q, offset, length) : pages_number(p, q);
    if (number != 0)
        return number;
    uint32_t line = line_of(left, right);
    bool erased = false;
    if (erased_counts(kind, line)) {
        switch (live_of(line)) {
        case LEFT:
            erased = is_erased(right, p);
            break;
        case RIGHT:
            erased = is_erased(left, p);
            break;
        case NOWHERE:
            erased = is_erased(left, p) && is_erased(right, p);
        }
    }
    *walk = (struct walk){
        .kind = kind,
        .line = line,
        .erased = erased,
        .page = (uint32_t)p,
        .offset = kind == SAVE ? offset : MANAGEMENT,
        .length = kind == SAVE ? (uint32_t)length : 0,
    };
    return 0;
}

static bool numbers_hold(const struct walk *walk, size_t p, size_t q, size_t length)
{
    if (request_number(p, q, walk->offset, walk->length) != 0)
        return false;
    if (p != walk->page || length != walk->length)
        return false;
    if (!in_table(walk->line))
        return false;
    return walk->kind == SAVE ||
           (walk->kind == FORMAT && walk->offset == MANAGEMENT && walk->length == 0);
}

static bool make(struct entry entry, const struct walk *walk, uint8_t *left, uint8_t *right,
                 const uint8_t *data)
{
    uint8_t *page = entry.side == LEFT ? left : right;
    switch (entry.what) {
    case ERASE:
        erase(page, walk->page);
        return true;
    case CELL:
        return program(page + MANAGEMENT, entry.cell,
                       new_cell(walk, left, right, data, entry.cell));
    default:
        return program(page, entry.cell, entry.value);
    }
}

static uint32_t step(struct walk *walk, uint8_t *left, size_t p, uint8_t *right, size_t q,
                     const uint8_t *data, size_t length)
{
    if (!numbers_hold(walk, p, q, length))
        return UNFIT;
    uint32_t total = total_of(walk);
    if (walk->place > total)
        return UNFIT;
    if (walk->place == total)
        return ENDED;
    struct entry entry = entry_at(walk);
    if (line_of(left, right) != entry.line)
        return UNFIT;
    if (!make(entry, walk, left, right, data))
        return UNFIT;
    walk->place++;
    return MADE;
}

/* ---- what the benchmark calls */

bool c_erased(const uint8_t *page, size_t p)
{
    return is_erased(page, p);
}

struct part c_part(const uint8_t *left, size_t p, const uint8_t *right, size_t q, uint32_t offset,
                   uint32_t length)
{
    const uint8_t *live = NULL;
    uint32_t number = read_number(left, p, right, q, offset, length, &live);
    if (number != 0)
        return (struct part){0, 0};
    return (struct part){.length = length, .first = length > 0 ? live[offset] : 0};
}

uint32_t c_copy(const uint8_t *left, size_t p, const uint8_t *right, size_t q, uint32_t offset,
                uint8_t *out, size_t length)
{
    const uint8_t *live = NULL;
    uint32_t number = read_number(left, p, right, q, offset, length, &live);
    if (number == 0)
        memcpy(out, live + offset, length);
    if (number == 5)
        memset(out, 0xFF, length);
    return number;
}

struct start c_begin(const uint8_t *left, size_t p, const uint8_t *right, size_t q, uint32_t offset,
                     const uint8_t *data, size_t length)
{
    (void)data;
    struct walk walk;
    uint32_t number = begin(SAVE, left, p, right, q, offset, length, &walk);
    if (number != 0)
        return (struct start){.number = (uint8_t)number};
    return (struct start){.line = (uint8_t)walk.line, .erased = walk.erased};
}

uint32_t c_step(uint32_t line, bool erased, uint32_t page, uint32_t offset, uint32_t kept,
                uint32_t *place, uint8_t *left, size_t p, uint8_t *right, size_t q,
                const uint8_t *data, size_t length)
{
    struct walk walk = {SAVE, line, erased, page, offset, kept, *place};
    uint32_t answer = step(&walk, left, p, right, q, data, length);
    *place = walk.place;
    return answer;
}

/* Steps a walk to its end, unless its beginning was refused with a number. */
static struct whole walk_on(uint32_t number, struct walk *walk, uint8_t *left, size_t p,
                            uint8_t *right, size_t q, const uint8_t *data, size_t length)
{
    if (number != 0)
        return (struct whole){.number = number};
    for (;;) {
        uint32_t answer = step(walk, left, p, right, q, data, length);
        if (answer == ENDED)
            return (struct whole){.steps = walk->place};
        if (answer == UNFIT)
            return (struct whole){.number = UNFIT, .steps = walk->place};
    }
}

struct whole c_save(uint8_t *left, size_t p, uint8_t *right, size_t q, uint32_t offset,
                    const uint8_t *data, size_t length)
{
    struct walk walk;
    uint32_t number = begin(SAVE, left, p, right, q, offset, length, &walk);
    return walk_on(number, &walk, left, p, right, q, data, length);
}

struct whole c_format(uint8_t *left, size_t p, uint8_t *right, size_t q)
{
    struct walk walk;
    uint32_t number = begin(FORMAT, left, p, right, q, 0, 0, &walk);
    return walk_on(number, &walk, left, p, right, q, NULL, 0);
}
