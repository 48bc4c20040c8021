/* Phaxelunu: XNC drill files read into, edited in and written from a table that the caller lends.
 *
 * A table has sixteen numbers for each line: kind, tool, x, y, diameter or radius, the state after the line (phase, unit,
 * motion, selected tool, point x and y, four words of the declared tools), and the decimals written in the radius (0 to 6 for an
 * arc, 0 for other kinds). Lengths count numbers or bytes. Blocks may have any length, and may be empty; a pointer is not used
 * where its length is 0, but must not be null.
 *
 * Each function answers (number << 48) + (column << 32) + value: 16 bits of number, 16 of column, 32 of value. Number 0 is success, with
 * column 0, and value the count. Any other number is a refusal of document 01, and value its line. So an answer is below 2^32 exactly on
 * success. A refused call changes nothing that was lent. xnc_number, xnc_column and xnc_value take an answer apart.
 *
 * A column says which byte of the line is refused, counted from 1. Refusals 4 and 7 of xnc_read and xnc_edit have one, from 1 to 256: for 4
 * the first forbidden byte, for 7 the first byte of the leftmost number that is out of range or has over six decimals, its sign included.
 * All other answers have column 0. */
#ifndef XNC_H
#define XNC_H

#include <stddef.h>
#include <stdint.h>

#ifdef __cplusplus
extern "C" {
#endif

/* Numbers in a row of a table. */
enum { XNC_ROW_WIDTH = 16 };

/* Numbers of the counts: how many hits each tool from 1 to 99 makes, then how many routs. They go with a table: xnc_read hands them out, and
 * each xnc_edit of that table takes them in and brings them up to date, so lend the same block again. In the block of a table's own counts,
 * what xnc_hits and xnc_routs answer is the number of the table's holes. A block under 198 numbers is refused 15 at line 0, after every other
 * refusal that doesn't look into it. Numbers behind the 198 are not used. */
enum { XNC_COUNTS_WIDTH = 198 };

/* The revision of XNC by whose rule lines are read. 2019 also takes a declaration with one digit, as T1C0.6; all else is the same by both.
 * Any other number means 2021. A table has no revision: it may be edited by either. */
enum { XNC_REVISION_2019 = 2019, XNC_REVISION_2021 = 2021 };

/* An answer's number, 0 on success. */
static inline uint32_t xnc_number(uint64_t answer) { return (uint32_t)(answer >> 48); }

/* An answer's column, from 1; 0 where it has none. */
static inline uint32_t xnc_column(uint64_t answer) { return (uint32_t)(answer >> 32) & 0xFFFF; }

/* An answer's count, or its line on refusal. */
static inline uint32_t xnc_value(uint64_t answer) { return (uint32_t)answer; }

/* Reads a file: the count is its number of lines n, the first 16 n numbers of the table are its rows, and the counts are those of its holes. */
uint64_t xnc_read(const uint8_t *file, size_t file_len, uint32_t revision, int32_t *table, size_t table_len, uint32_t *counts,
                  size_t counts_len);

/* Line `line` (from 1) of a table of n rows gets new bytes, without a line end. The count is the meeting line: the first, from the edited
 * one on, after which old and new states agree, or n. Only rows from the edited line to it change. Their old holes are taken from the counts,
 * and their new ones added. After all other refusals it is refused 18 at line 0 if a count, of any tool, is over 1,000 or under what these
 * rows take from it: then the counts are not this table's own. */
uint64_t xnc_edit(int32_t *table, size_t table_len, size_t n, size_t line, const uint8_t *text, size_t text_len, uint32_t revision,
                  uint32_t *counts, size_t counts_len);

/* How many hits, and how many routs, a tool makes. A tool that is not 1 to 99 is refused 7 at line 0. The counts are taken as they are. */
uint64_t xnc_hits(const uint32_t *counts, size_t counts_len, uint32_t tool);
uint64_t xnc_routs(const uint32_t *counts, size_t counts_len, uint32_t tool);

/* The hole of a line. The count is 1, with seven numbers put into `hole` (kind, tool, start x, start y, end x, end y, radius), or 0 where the
 * line makes none, with `hole` unchanged. A `hole` block under seven numbers is refused 15 at line 0, after all other refusals. */
uint64_t xnc_hole(const int32_t *table, size_t table_len, size_t n, size_t line, int32_t *hole, size_t hole_len);

/* Writes a good table as XNC: the count is the number of bytes. Comments are dropped. A radius has just the decimals of its row. Whole
 * numbers, and a radius of 0 decimals, are written without a point; some older programs that guess an implied decimal point misread such
 * numbers. */
uint64_t xnc_write(const int32_t *table, size_t table_len, size_t n, uint8_t *text, size_t text_len);

#ifdef __cplusplus
}
#endif

#endif
