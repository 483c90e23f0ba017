/* Ownership of values in one Atlas77 body: the entries of libownership_pass.a, liblent.a and libimage.a (document 01). docs/IMAGE.md has the bytes
 * of an image and how to read the one given back, docs/REPORTS.md what the lists say.
 *
 * The entries that walk a body answer 0, accepted, or the number of the first fault:
 *    1  under 5 bytes, over 65,536, or wrong length    2  version not 1
 *    3  names      4  types      5  structs      6  globals      7  entry: a rule broken, or bytes run out
 *    8  body: unknown byte, number outside its table, a Delete's type not 0, or bytes run out
 *    9  block deeper than 12 or expression deeper than 24    10  bytes left over    11  generic receiver
 *   12  a 65th local registered at one time    13  a joined state needs a 9th place
 *   14  errors, warnings or left-behind entries outnumber those lent
 *   15  the image does not fit the output lent, or a block would count over 65,535 statements
 *   16  the page does not fit its buffer
 *   17  a switch value above 15; this comes before every other
 * On a fault nothing at all is changed, *room, *totals and *written included.
 *
 * Any bytes may be submitted as an image. Every pointer must be non-null and aligned for its type, also where its length is 0, and
 * valid for its length; what is written to must overlap neither the image nor any other memory lent in the same call. The calls hold
 * no state, allocate nothing and keep no pointer: threads may call them at one time, each with memory of its own to write to.
 *
 * Machine stack: give a thread that calls them 1 MB. Measured (bench/memory.c), ownership_pass takes up to 254,176 bytes,
 * ownership_room 151,680 and ownership_page 204,768, with switches and without. Nothing proves a bound, and a stack that is too small ends the process.
 *
 * An image of n bytes without faults 1 to 13 has, with m = n - 28 and rounded down, at most m / 7 errors, m / 21 warnings and
 * 64 * (m / 5) left-behind entries, and n + 90 * m bytes of output; for 65,536 bytes 9,358, 3,119, 838,464 and 5,961,256. With switch 1
 * on (and 2 off) it has at most n + 168 * m bytes of output, with switch 2 on n + 269 * m. At least 28
 * bytes stand before the first statement; an error needs an Ident (9 bytes), a ThisLiteral (7) or an Intrinsic (11) of its own, a warning
 * a statement, a call and a callee (5 + 9 + 7); a break, a continue (5) or a bare return (8) leaves at most 64 locals or gains as many
 * deletes, a return with a value (15) gains at most 64 deletes of 21 bytes. This follows from the widths of the image and is not proved.
 */
#ifndef OWNERSHIP_PASS_H
#define OWNERSHIP_PASS_H

#include <stddef.h>
#include <stdint.h>

#ifdef __cplusplus
extern "C" {
#endif

/* The numbers of one entry of each list, and of totals. Lists are lent as numbers: room for n errors is an errors_len of 12 * n. */
#define OWNERSHIP_ERROR_NUMBERS 12  /* kind 1 to 8, place, hint, count of other places, 8 other places (unused ones 0) */
#define OWNERSHIP_WARNING_NUMBERS 2 /* the statement's span, the byte offset of the callee's tag in the submitted image */
#define OWNERSHIP_LEFT_NUMBERS 3    /* the span of the return, break or continue, the local's name, the span of the Let or Const that
                                     * registered it; 0 for a parameter and `this` */
#define OWNERSHIP_TOTALS 4          /* bytes written, errors, warnings, left-behind entries */

/* The switches of the drop rules, to be added up; docs/REPORTS.md shows what each does. A drop that is made is not listed as left behind.
 * Errors' places, warnings and faults 12 and 13 are the same with any of them. */
#define OWNERSHIP_DROP_AT_BARE_RETURNS 1 /* a bare return drops as one with a value that excludes no name, spans 0 */
#define OWNERSHIP_DROP_AT_JUMPS 2        /* break and continue drop what they would leave behind, spans 0; no state changes */
#define OWNERSHIP_JOIN_CONDITIONAL 4     /* two differing conditional states of one family join to a conditional one */
#define OWNERSHIP_DROP_PARAMETERS 8      /* the body's end drops parameters and `this` too, unless it surely returns; the body's span */

/* Gives back the body with the deletes inserted, as a whole image, and what is reported, each list in order. On 0 the first bytes of
 * output, the first entries of each list and all of totals are written; the rest of what is lent is unchanged. A length that is no
 * multiple of an entry's numbers lends the whole entries in it. Faults 1 to 15.
 * What is given back may not read as an image again: it may pass 65,536 bytes (fault 1), and an unused result of depth 24 comes back
 * in a Delete, 25 deep (fault 9). */
uint32_t ownership_pass(const uint8_t *image, size_t image_len,
                        uint8_t *output, size_t output_len,
                        uint32_t *errors, size_t errors_len,
                        uint32_t *warnings, size_t warnings_len,
                        uint32_t *left, size_t left_len,
                        uint64_t *totals /* OWNERSHIP_TOTALS of them */);

/* The same with switches: 0 to 15, any other value is fault 17. The entries without switches have all of them off. */
uint32_t ownership_pass_switched(uint32_t switches, const uint8_t *image, size_t image_len,
                                 uint8_t *output, size_t output_len,
                                 uint32_t *errors, size_t errors_len,
                                 uint32_t *warnings, size_t warnings_len,
                                 uint32_t *left, size_t left_len,
                                 uint64_t *totals /* OWNERSHIP_TOTALS of them */);

/* The bytes of output that ownership_pass needs for this image: no fewer than it writes, at most
 * image_len + 21 * (statements in all blocks + 1) * (registrations + 1), a registration being a Let, a Const, a parameter or `this`.
 * Faults 1 to 13. */
uint32_t ownership_room(const uint8_t *image, size_t image_len, uint64_t *room);

/* Those that ownership_pass_switched needs with the same switches, within the same bound. */
uint32_t ownership_room_switched(uint32_t switches, const uint8_t *image, size_t image_len, uint64_t *room);

/* Writes what is reported as a page for people (docs/REPORTS.md): errors, warnings and left-behind entries, however many there are, in
 * lines of 72 printable bytes and a line feed. On 0 the first *written bytes of page are the page, a multiple of 73, and the rest is
 * unchanged; with nothing to report it is 0 bytes, which fit a page_len of 0. An entry takes a line, an error with 4 to 6 other places
 * two, with 7 or 8 three; 73 * (3 * (m / 7) + m / 21 + 64 * (m / 5)) bytes are always enough. No list is lent. Faults 1 to 13,
 * then 16. */
uint32_t ownership_page(const uint8_t *image, size_t image_len, uint8_t *page, size_t page_len, uint64_t *written);

/* The page of what ownership_pass_switched reports with the same switches. */
uint32_t ownership_page_switched(uint32_t switches, const uint8_t *image, size_t image_len, uint8_t *page, size_t page_len, uint64_t *written);

/* An error as a record, of its 12 numbers: of the places, the first count. */
struct ownership_report {
    uint32_t kind, place, hint, count, places[8];
};

/* Turns the numbers of so many errors, as ownership_pass wrote them, into records: of liblent.a (tools/build lent). Answers 0, or 14
 * with nothing changed if fewer than count records or fewer than 12 * count numbers are lent. Records past count are unchanged. */
uint32_t ownership_reports(const uint32_t *numbers, size_t numbers_len, size_t count,
                           struct ownership_report *reports, size_t reports_len);

/* Reads an image and answers 0 or its fault of reading, 1 to 11; needs no memory lent and walks nothing: of libimage.a (tools/build image). */
uint64_t image_fault(const uint8_t *image, size_t image_len);

#ifdef __cplusplus
}
#endif

#endif
