/* Fretgalaxy for hosts in C: a script of calls, replayed on two flash pages.
 *
 * fretgalaxy_replay is proved to meet its contract (crates/fretgalaxy/src/lib.rt) for any bytes in
 * the pages and in the script: it checks the whole script, makes its calls one after another as a
 * board would, and writes every answer, which is the one that document 01's book gives. This
 * header is all that a host has to read.
 *
 *
 * Building
 *
 * Link target/staticlib/libfretgalaxy.a, which `tools/build fretgalaxy` makes. It is for x86-64
 * Linux: ELF objects and that system's calling convention. The library keeps nothing between calls.
 * Of C's functions it calls those on the next line and no others. A host without a C library
 * supplies them; either may be called with length 0, and then with any pointers.
 *
 * Calls: memmove memset
 *
 *
 * The store
 *
 * LEFT and RIGHT are pages of the same length P, even, from 8 to 4,096 bytes. Bytes 0 to 3 of a
 * page are management, the others its image. At most one page is live: its image is what a read
 * shows. Page offsets count from byte 0 of a page, so an image begins at page offset 4.
 *
 * A save or a format is a walk. It is begun, which changes no page, and then made step by step:
 * each step programs a cell of 16 bits or erases a page, and is made whole or not at all. One step
 * decides: before it a read shows the old image, whole, and from it on the new one, whole, or of a
 * format none. A save has at most (P - 4) / 2 + 6 steps, a format at most 3. A walk is in hand
 * until the power is cut, or until a beginning that isn't refused replaces it.
 *
 *
 * The script
 *
 * Calls one after another, with nothing before, between or after them; a script may be empty. A
 * call is FRETGALAXY_CALL_SIZE bytes, for some kinds followed by bytes of its own:
 *
 *     byte 0         the kind of call, 1 to 7
 *     bytes 1 to 4   a number A, lowest byte first
 *     bytes 5 to 8   a number B, lowest byte first
 *     byte 9 on      B bytes, for the kinds 1, 4 and 6
 *
 *     kind                   A            B       bytes                  answers  room
 *     1  begin a save        page offset  length  its data               one      1
 *     2  begin a format      0            0                              one      1
 *     3  step A times        how often    0                              A        A
 *     4  step once           0            length  data for the step      one      1
 *     5  read a part         page offset  length                         one      1 + B, or 1 where
 *                                                                                 B is above 4,092
 *     6  read into an output page offset  length  what the output holds  one      2 + B
 *     7  cut the power       0            0                              one      1
 *
 * A step of kind 3 is handed the held data: that of the save in hand, none for a format. A step of
 * kind 4 whose bytes are as many as the held ones is handed the held data too; with another length
 * it is answered 6. With no walk in hand a step is answered 00, whatever bytes it has.
 *
 *
 * The answers
 *
 * They stand in out one after another, from its start; what lies behind them is as it was.
 *
 *     00                   nothing: the power is cut, or a step with no walk in hand
 *     01 to 06             refused with this number
 *     10                   a walk is begun
 *     11                   a step is made
 *     12                   the walk has ended: its last step was made before
 *     20, B bytes          the part that is read
 *     21, number, B bytes  an output read into: the number, or 00 where the read isn't refused, and
 *                          all bytes of the output: those read; FF each at number 5; what the
 *                          output held at any other number
 *
 *     number  given to              when
 *     1       beginnings, reads     the pages differ in length, or P is odd, below 8 or above 4,096
 *     2       saves begun, reads    offset or length is odd
 *     3       saves begun, reads    offset is below 4
 *     4       saves begun, reads    offset is P or more, or offset + length is above P
 *     5       reads                 no page is live
 *     6       steps                 the data hasn't the length of the held data
 *
 * The first that holds is given. What is refused leaves the pages and the walk in hand as they
 * were. Length 0 is legal below P.
 *
 *
 * The report
 *
 * The whole script is checked before its first call is made. A call is malformed if the script
 * ends within it, if its kind isn't 1 to 7, or if A or B isn't 0 where the table says 0. A call has
 * no room if out has fewer bytes than its room and the rooms of all calls before it; a room is what
 * answers can take at most. In both cases no call is made and no byte is changed. The first such
 * call decides, and a call that is both is malformed.
 *
 *     status                place
 *     FRETGALAXY_REPLAYED   how many bytes of out the answers take
 *     FRETGALAXY_MALFORMED  the byte of the script at which the malformed call begins
 *     FRETGALAXY_NO_ROOM    the byte of the script at which the call without room begins
 *
 *
 * The caller's duties
 *
 * The proof takes what a slice is for granted. So the caller's duties are:
 *
 * 1. Each pointer points to at least as many bytes as the length after it says. Where that length
 *    is 0 any pointer will do, a null pointer too. No length is 2^63 or more.
 * 2. left, right and out may be written, and no two of the four buffers share a byte.
 * 3. While the call runs, nothing else writes any of the four, or reads left, right or out.
 *
 * Lengths and contents are free otherwise: pages of no legal length are answered with number 1, and
 * a script that is malformed or has no room for its answers is refused and changes nothing.
 */
#ifndef FRETGALAXY_H
#define FRETGALAXY_H

#include <stddef.h>
#include <stdint.h>

/* The version of this header and of the library beside it. */
#define FRETGALAXY_VERSION_MAJOR 0
#define FRETGALAXY_VERSION_MINOR 6
#define FRETGALAXY_VERSION_PATCH 0
#define FRETGALAXY_VERSION "0.6.0"

#ifdef __cplusplus
extern "C" {
#endif

/* Bytes of a call before its own, of a page's management, and of pages and images. */
enum fretgalaxy_size {
    FRETGALAXY_CALL_SIZE = 9,
    FRETGALAXY_MANAGEMENT_SIZE = 4,
    FRETGALAXY_MIN_PAGE = 8,
    FRETGALAXY_MAX_PAGE = 4096,
    FRETGALAXY_MAX_IMAGE = FRETGALAXY_MAX_PAGE - FRETGALAXY_MANAGEMENT_SIZE
};

/* The kinds of call: the first byte of each. */
enum fretgalaxy_call {
    FRETGALAXY_SAVE = 1,
    FRETGALAXY_FORMAT = 2,
    FRETGALAXY_STEPS = 3,
    FRETGALAXY_STEP_WITH = 4,
    FRETGALAXY_READ = 5,
    FRETGALAXY_READ_INTO = 6,
    FRETGALAXY_CUT = 7
};

/* The first byte of each answer that isn't a number. */
enum fretgalaxy_answer {
    FRETGALAXY_NOTHING = 0x00,
    FRETGALAXY_BEGUN = 0x10,
    FRETGALAXY_MADE = 0x11,
    FRETGALAXY_ENDED = 0x12,
    FRETGALAXY_PART = 0x20,
    FRETGALAXY_OUTPUT = 0x21
};

/* Document 01's numbers: the first byte of a refusal, and the second of an output read into. */
enum fretgalaxy_number {
    FRETGALAXY_NO_NUMBER = 0,
    FRETGALAXY_PAGE_LENGTH = 1,
    FRETGALAXY_ODD_REQUEST = 2,
    FRETGALAXY_IN_MANAGEMENT = 3,
    FRETGALAXY_PAST_END = 4,
    FRETGALAXY_NO_LIVE = 5,
    FRETGALAXY_UNFIT = 6
};

enum fretgalaxy_status {
    FRETGALAXY_REPLAYED = 0,
    FRETGALAXY_MALFORMED = 1,
    FRETGALAXY_NO_ROOM = 2
};

/* What happened, and a place: how many bytes of out the answers take, or the byte of the script at
 * which the refused call begins. */
struct fretgalaxy_report {
    uint32_t status;
    size_t place;
};

struct fretgalaxy_report fretgalaxy_replay(
    uint8_t *left, size_t left_length,
    uint8_t *right, size_t right_length,
    const uint8_t *script, size_t script_length,
    uint8_t *out, size_t out_length);

#ifdef __cplusplus
}
#endif

#endif
