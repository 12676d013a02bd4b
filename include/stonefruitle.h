/*
 * Stonefruitle: whether two moving convex outlines meet, and why.
 *
 * A RETURN OF 0 MEANS "NOT REFUSED", AND A CONTACT IS NOT REFUSED. A caller who
 * goes on 0 drives into the other carriage. Look at the answer line's second
 * byte, its characters 2 and 3:
 *
 *     "00" or "01"   clear: the move may be let go
 *     "02"           contact: the move is held
 *     "ff"           refused: nothing is known of the move, so it is held
 *
 * Go on clear and on nothing else: a return of 0, line[2] == '0', and line[3]
 * == '0' or '1'. examples/c/answer.c does so. docs/FORMAT.md has every byte of
 * the lines. stonefruitle_answer_edition writes numbers and no line: go on a
 * return of 0 and a case of 0 or 1, both, since with a refusal the numbers are
 * all zero. stonefruitle_read_line, stonefruitle_read_move,
 * stonefruitle_read_rectangles, stonefruitle_read_log and
 * stonefruitle_test_outline do not look whether outlines meet at all.
 *
 * Link with libstonefruitle_c.a (`rt lib` in crates/stonefruitle_c writes it to
 * crates/stonefruitle_c/out). Each function is proved to meet its contract, which
 * says of every input what is returned and what stands in each lent buffer
 * afterwards (crates/stonefruitle_c/src/lib.rt).
 *
 * What a call costs, as tests/costs measures it:
 *
 * Stack    under 6 KB. Measured by painting a stack before the call: 5.4 KB for
 *          stonefruitle_log_step, 4.9 for stonefruitle_read_log, 4.3 for
 *          stonefruitle_answer_line, 4.2 for stonefruitle_read_move, 4.0 for
 *          stonefruitle_read_line, 3.7 for stonefruitle_answer_lists and
 *          stonefruitle_write_move, 3.6 for stonefruitle_answer_edition, less
 *          for the others; 1.2 at most for rectangles, as lines or as numbers.
 * Time     bounded, whatever is handed in. A longer line or list is refused
 *          unread. Each outline's 16 corners at most are tried against its 16
 *          edges, and once more against edge 0. At most 32 sides are worked,
 *          each with 31 products for the corners and two for the velocities; for
 *          a contact from time zero they are gone through once more at most. For
 *          a contact, 2 times 16 corners at most are tried against 16 edges, and
 *          256 pairs of edges in 4 directions; two fractions are brought to
 *          lowest terms by at most 43 divisions each. Of rectangles two spans are
 *          worked, and 8 corners at most are tried by comparisons. The slowest of
 *          5802 moves of twice 16 corners took 16 microseconds on one core of an
 *          Intel Xeon server, built by the older rattle-kit-5b: a figure of one
 *          machine, not a promise.
 * Memory   nothing is allocated and nothing is kept between calls: there are no
 *          globals and no locks, so calls are safe from several threads, each
 *          with its own buffers.
 * Needed   memcpy and memset; nothing else of the C library, and no system call.
 *
 * Buffers. A buffer is handed in as a pointer and a length in elements. The
 * pointer is not null and is aligned for its elements, also where the length
 * is 0. Inputs are never written. An output buffer may not overlap an input or
 * another output.
 *
 * Numbers. An outline is a list of coordinates x, y, x, y, .. of its 3 to 16
 * corners, counterclockwise, so 6 to 32 numbers. A rectangle, upright on the
 * bed, is a list of four: low x, low y, high x, high y. Coordinates and velocity
 * components are from -10000 to 10000, the limit is from 0 to 10000. Numbers
 * outside are refused; no input of any kind is undefined.
 *
 * Sound outlines. An outline is sound if all corners differ, not all lie on one
 * line, and no corner lies to the right of any edge's line. So it is a convex
 * polygon, passed once, counterclockwise; corners may lie along its edges. Edge i
 * runs from corner i to corner i + 1, the last to corner 0.
 *
 * Lines. A move line, a line of a log or an answer line is hexadecimal text,
 * closed by byte 0a where it is written and handed in without it
 * (docs/FORMAT.md). A move line is of kind 01, two outlines, or of kind 02, two
 * rectangles; those of a log are of kind 01 only. A move of two rectangles is
 * answered as that of two outlines whose four corners run from low x, low y
 * counterclockwise, with its sides and corners.
 *
 * Editions. In edition 1 of the house rule the outlines are in contact where
 * they share a point, so that touching counts; in edition 2 only where they
 * share an inner point, so that outlines may slide along one another.
 * stonefruitle_answer_edition takes the edition; lines and all other functions
 * mean edition 1.
 *
 * Each function returns the number of its refusal, 0 for none. Of several that
 * apply the first in this list is returned.
 *
 * Edges. Each function takes as its last argument a place for the number of an
 * edge. With refusals 8 and 9, and with no other return, it is written: 0 if all
 * corners of that outline are on one line, else its lowest edge that has a corner
 * to its right or whose start equals another corner. Of a rectangle it is 0. With
 * any other return *edge is left as it was.
 */
#ifndef STONEFRUITLE_H
#define STONEFRUITLE_H

#include <stdbool.h>
#include <stddef.h>
#include <stdint.h>

#define STONEFRUITLE_NONE 0   /* no refusal; a contact is none */
#define STONEFRUITLE_ROOM 1   /* too few bytes lent for the line */
#define STONEFRUITLE_DIGITS 2 /* a line that is empty, odd in length, over 282 digits (288 in a log), or with another character than 0-9 and a-f */
#define STONEFRUITLE_KIND 3   /* a line whose first byte is neither 01 nor 02, or of another kind than is read; in a log, not 03, or a fourth byte is there and is not 01 */
#define STONEFRUITLE_COUNT 4  /* a count of corners outside 3 to 16, a list of odd length, or a line of another length than its counts ask for; of rectangles, a list not of four numbers or a line not of 27 bytes */
#define STONEFRUITLE_LIMIT 5  /* the limit is outside 0 to 10000 */
#define STONEFRUITLE_SPEED 6  /* a velocity component is outside -10000 to 10000 */
#define STONEFRUITLE_PLACE 7  /* a coordinate is outside -10000 to 10000 */
#define STONEFRUITLE_FIRST 8  /* the first outline is not sound; *edge says which edge is wrong. The first rectangle's low is not below its high in x or in y; *edge is 0 */
#define STONEFRUITLE_SECOND 9 /* the second outline or rectangle, likewise */
#define STONEFRUITLE_ORDER 10 /* a line of a log whose number does not follow the kept one */
#define STONEFRUITLE_EDITION 11 /* the edition named is neither 1 nor 2; comes before 4 */

/* The kinds of a move line: two outlines, two rectangles. */
#define STONEFRUITLE_OUTLINES 1
#define STONEFRUITLE_RECTANGLES 2

/* The least room for an answer line and for a move line of either kind, 0a included. */
#define STONEFRUITLE_ANSWER_ROOM 45
#define STONEFRUITLE_MOVE_ROOM 283
#define STONEFRUITLE_RECTANGLES_ROOM 55

/* How many numbers stonefruitle_read_move and stonefruitle_read_log hand out, and where they stand. */
#define STONEFRUITLE_NUMBERS 71
#define STONEFRUITLE_AT_LIMIT 0
#define STONEFRUITLE_AT_VELOCITY_A 1
#define STONEFRUITLE_AT_VELOCITY_B 3
#define STONEFRUITLE_AT_COUNT_A 5
#define STONEFRUITLE_AT_COUNT_B 6
#define STONEFRUITLE_AT_A 7
#define STONEFRUITLE_AT_B 39

/* The same of stonefruitle_read_rectangles, whose limit and velocities stand in the same places. */
#define STONEFRUITLE_RECTANGLES_NUMBERS 13
#define STONEFRUITLE_AT_RECTANGLE_A 5
#define STONEFRUITLE_AT_RECTANGLE_B 9

/* How many numbers stonefruitle_answer_edition hands out, and where they stand. */
#define STONEFRUITLE_ANSWER_NUMBERS 12
#define STONEFRUITLE_AT_CASE 0
#define STONEFRUITLE_AT_SIDES 1
#define STONEFRUITLE_AT_FIRST 3
#define STONEFRUITLE_AT_LAST 5
#define STONEFRUITLE_AT_BEARING 7
#define STONEFRUITLE_AT_SHOWING 8
#define STONEFRUITLE_AT_WORKED 11

/* The cases, and the bearing that stands for none. */
#define STONEFRUITLE_CLEAR_BY_ONE 0
#define STONEFRUITLE_CLEAR_BY_TWO 1
#define STONEFRUITLE_CONTACT 2       /* of edition 1 */
#define STONEFRUITLE_INNER_CONTACT 3 /* of edition 2 */
#define STONEFRUITLE_NO_BEARING 255

#ifdef __cplusplus
extern "C" {
#endif

/*
 * The answer to a move line of either kind.
 *
 * Takes the line without its 0a, a buffer for the answer line, a place for its
 * length and one for an edge. Refusals: 1 where out_length is under 45, then 2
 * to 9.
 *
 * Without a refusal, the first *written bytes of out are the answer line with
 * its 0a: 81 00 k or 81 01 i j for clear, 81 02 n d n d b s p q for contact, in
 * hexadecimal, so 7, 9 or 45 bytes. With refusal r from 2 to 7 they are the 7
 * bytes of 81 ff r with 0a; with r 8 or 9 the 9 bytes of 81 ff r e with 0a,
 * where e is the edge that *edge has, too. With refusal 1 nothing is written to
 * out and *written is 0. The bytes of out after the line stay as they were.
 *
 * b is the side that bears: at the first time of contact the outlines' intervals
 * on it share exactly one value. Where that time is zero it is the lowest such
 * side; ff, none, where they share more than one value on every side: then the
 * outlines overlap at time zero.
 */
uint8_t stonefruitle_answer_line(const uint8_t *line, size_t line_length,
                                 uint8_t *out, size_t out_length,
                                 size_t *written, uint8_t *edge);

/*
 * The answer to a move handed in as numbers.
 *
 * Takes the coordinates of both outlines, the velocity of each, the limit, a
 * buffer for the answer line, a place for its length and one for an edge.
 * a_length and b_length count numbers, so twice the corners. Refusals: 1 where
 * out_length is under 45, then 4 to 9.
 *
 * out, *written and *edge are left as by stonefruitle_answer_line.
 */
uint8_t stonefruitle_answer_lists(const int64_t *a, size_t a_length,
                                  const int64_t *b, size_t b_length,
                                  int64_t vax, int64_t vay,
                                  int64_t vbx, int64_t vby, int64_t limit,
                                  uint8_t *out, size_t out_length,
                                  size_t *written, uint8_t *edge);

/*
 * The answer, in the edition named, to a move handed in as numbers.
 *
 * Takes the edition, 1 or 2, the coordinates of both outlines, the velocity of
 * each, the limit, a place for 12 numbers and one for an edge. Refusals: 11 for
 * any other edition, then 4 to 9. With any refusal all 12 numbers are zero,
 * which is no "clear by side 0"; with 8 and 9 *edge is written.
 *
 * All 12 numbers are written. Those that have nothing to say are 0:
 *
 *     0        the case: 0 clear by one, 1 clear by two, 2 contact in edition 1,
 *              3 contact in edition 2
 *     1, 2     the side, or the two sides, that keep the outlines apart
 *     3, 4     n and d of the first time of contact, in lowest terms
 *     5, 6     n and d of the last
 *     7        the side that bears, 255 for none; edition 1 only
 *     8 to 10  the kind of the showing and its two numbers; edition 1 only
 *     11       how many sides were worked, 1 to 32: those in order up to and with
 *              the first whose span is empty, so k + 1 for clear by one at side
 *              k, otherwise all, the sum of both counts of corners
 *
 * In edition 1 the first 11 are what stonefruitle_answer_lists writes as a line,
 * which does not say how many sides were worked. In
 * edition 2 contact means that at some time from 0 to the limit the outlines
 * share an inner point. First and last are then the greatest lower and the least
 * upper bound of those times, and need not be such times themselves. Clear means
 * that there is no such time; the outlines may touch all the while.
 */
uint8_t stonefruitle_answer_edition(uint64_t edition,
                                    const int64_t *a, size_t a_length,
                                    const int64_t *b, size_t b_length,
                                    int64_t vax, int64_t vay,
                                    int64_t vbx, int64_t vby, int64_t limit,
                                    uint64_t numbers[STONEFRUITLE_ANSWER_NUMBERS],
                                    uint8_t *edge);

/*
 * The line of a move handed in as numbers.
 *
 * Takes what stonefruitle_answer_lists takes. Refusals: 1 where out_length is
 * under 283, then 4 to 9.
 *
 * Without a refusal, the first *written bytes of out, 75 to 283, are the move
 * line with its 0a, and the bytes after it stay as they were. With a refusal
 * nothing is written to out and *written is 0; with 8 and 9 *edge is written.
 */
uint8_t stonefruitle_write_move(const int64_t *a, size_t a_length,
                                const int64_t *b, size_t b_length,
                                int64_t vax, int64_t vay,
                                int64_t vbx, int64_t vby, int64_t limit,
                                uint8_t *out, size_t out_length,
                                size_t *written, uint8_t *edge);

/*
 * The answer to a move of two rectangles handed in as numbers.
 *
 * Takes what stonefruitle_answer_lists takes, but of each rectangle the four
 * numbers low x, low y, high x, high y, so that a_length and b_length are 4.
 * Refusals: 1 where out_length is under 45, 4 where a length is not 4, then 5 to
 * 9.
 *
 * out, *written and *edge are left as by stonefruitle_answer_line.
 */
uint8_t stonefruitle_answer_rectangles(const int64_t *a, size_t a_length,
                                       const int64_t *b, size_t b_length,
                                       int64_t vax, int64_t vay,
                                       int64_t vbx, int64_t vby, int64_t limit,
                                       uint8_t *out, size_t out_length,
                                       size_t *written, uint8_t *edge);

/*
 * The line, of kind 02, of a move of two rectangles handed in as numbers.
 *
 * Takes what stonefruitle_answer_rectangles takes. Refusals: 1 where out_length
 * is under 55, then 4 to 9.
 *
 * Without a refusal, the first *written bytes of out, which are 55, are the line
 * with its 0a, and the bytes after it stay as they were. With a refusal nothing
 * is written to out and *written is 0; with 8 and 9 *edge is written.
 */
uint8_t stonefruitle_write_rectangles(const int64_t *a, size_t a_length,
                                      const int64_t *b, size_t b_length,
                                      int64_t vax, int64_t vay,
                                      int64_t vbx, int64_t vby, int64_t limit,
                                      uint8_t *out, size_t out_length,
                                      size_t *written, uint8_t *edge);

/*
 * Whether a line is a move, and of which kind.
 *
 * Takes the line without its 0a, a place for its kind and one for an edge, and
 * writes nothing else. Refusals: 2 to 9, and with 8 and 9 *edge is written.
 * Without a refusal *kind is 1 for two outlines or 2 for two rectangles; with
 * one it is left as it was. 0 says nothing of whether the outlines meet.
 */
uint8_t stonefruitle_read_line(const uint8_t *line, size_t line_length,
                               uint8_t *kind, uint8_t *edge);

/*
 * The move of a line of kind 01, as numbers.
 *
 * Takes the line without its 0a, a place for 71 numbers and one for an edge.
 * All 71 numbers are written: the limit; the velocity x, y of A; that of B; the
 * count of corners of A; that of B; x, y of A's sixteen corner places; those of
 * B's. Places past the count are zero. Refusals: 2 to 9, 3 for a line of kind
 * 02, and then all 71 numbers are zero; with 8 and 9 *edge is written.
 */
uint8_t stonefruitle_read_move(const uint8_t *line, size_t line_length,
                               int64_t numbers[STONEFRUITLE_NUMBERS],
                               uint8_t *edge);

/*
 * The move of a line of kind 02, as numbers.
 *
 * Takes the line without its 0a, a place for 13 numbers and one for an edge. All
 * 13 numbers are written: the limit; the velocity x, y of A; that of B; low x,
 * low y, high x, high y of A; those of B. Refusals: 2 to 9, 3 for a line of kind
 * 01, and then all 13 numbers are zero; with 8 and 9 *edge, which is 0, is
 * written.
 */
uint8_t stonefruitle_read_rectangles(
    const uint8_t *line, size_t line_length,
    int64_t numbers[STONEFRUITLE_RECTANGLES_NUMBERS], uint8_t *edge);

/*
 * One line of a log: its answer, and what it leaves for the next line.
 *
 * Takes what the lines before it leave: kept_some, whether one of them was
 * accepted, and kept_number, the number of the last that was, which is not
 * looked at where kept_some is false. Takes the line without its 0a, a buffer
 * for the answer line and five places. The first call of a log has kept_some
 * false; each later one is handed what the one before left.
 *
 * Refusals: 1 where out_length is under 45; 2 to 9; then 10 where a number is
 * kept and the line's is none of the 32767 that follow it, 0 coming after
 * 65535.
 *
 * Without a refusal *kept_some_after is true, *kept_number_after is the line's
 * number and *lost is how many numbers were left out before it, 0 to 32766; 0
 * where none was kept. With any refusal, 1 and 10 too, what is kept stays:
 * *kept_some_after is kept_some, *kept_number_after is kept_number, or 0 where
 * none is kept; and *lost is 0.
 *
 * out, *written and *edge are left as by stonefruitle_answer_line, with refusal
 * 10 as with 2 to 7. The answer to a line that is accepted is that to its move.
 */
uint8_t stonefruitle_log_step(bool kept_some, uint16_t kept_number,
                              const uint8_t *line, size_t line_length,
                              uint8_t *out, size_t out_length,
                              bool *kept_some_after,
                              uint16_t *kept_number_after, uint16_t *lost,
                              size_t *written, uint8_t *edge);

/*
 * The number and the move of a line of a log.
 *
 * Takes the line without its 0a, a place for its number, one for 71 numbers, all
 * of which are written as by stonefruitle_read_move, and one for an edge.
 * Refusals: 2 to 9, and then *number and all 71 numbers are zero; with 8 and 9
 * *edge is written. Whether the line is in order is not looked at.
 */
uint8_t stonefruitle_read_log(const uint8_t *line, size_t line_length,
                              uint16_t *number,
                              int64_t numbers[STONEFRUITLE_NUMBERS],
                              uint8_t *edge);

/*
 * Whether an outline is sound.
 *
 * Takes the outline's coordinates (length counts numbers) and a place for an
 * edge, and writes nothing else. Refusals: 4 for the count of numbers, 7 for a
 * coordinate out of range, 8 where the outline is not sound: two corners are
 * equal, all lie on one line, or one lies to the right of an edge's line. *edge
 * is then 0 if all are on one line, else the lowest edge that has a corner to its
 * right or whose start equals another corner.
 */
uint8_t stonefruitle_test_outline(const int64_t *coordinates, size_t length,
                                  uint8_t *edge);

#ifdef __cplusplus
}
#endif

#endif
