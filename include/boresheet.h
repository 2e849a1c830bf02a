/* Bore sheets: the check of a sheet, and its run over sixteen readings.
 *
 * Both functions answer the number of the refusal, 0 for none, and set *line on every return: the line refused,
 * counted from 1, so that it is one more than the LFs before it; 0 where no line is named (none refused,
 * BORESHEET_SIZE, BORESHEET_LENT).
 * They keep nothing between calls, allocate nothing, and write nothing but what is said here.
 * They call memcpy and memset and no other function: no mathematical library is linked.
 *
 * What the caller owes: each pointer is good for the length beside it, also where that length is 0 (no null pointer);
 * line and written point to their numbers; nothing that is written overlaps anything else that is passed.
 * A run takes less than 160 KiB of stack.
 */
#ifndef BORESHEET_H
#define BORESHEET_H

#include <stddef.h>
#include <stdint.h>

#ifdef __cplusplus
extern "C" {
#endif

/* The lengths that must be lent; any other is BORESHEET_LENT. */
#define BORESHEET_KINDS 96
#define BORESHEET_READINGS 16
#define BORESHEET_OUT 24576

/* The refusals, in the order in which they are tested; 7, 8 and 9 line by line, where the run meets them. */
#define BORESHEET_SIZE 1
#define BORESHEET_LENT 2
#define BORESHEET_FORM 3
#define BORESHEET_ELLIPSOID 4
#define BORESHEET_NAME 5
#define BORESHEET_KIND 6
#define BORESHEET_LIMIT 7
#define BORESHEET_CENTRE 8
#define BORESHEET_APART 9

/* Checks a sheet. Where it passes, kinds holds one kind code a line, 255 for line 1 and 254 for an apart, and its later
 * places are as they were; where it is refused, all of kinds is as it was. */
uint32_t boresheet_check(const uint8_t *sheet, size_t sheet_len, uint8_t *kinds, size_t kinds_len, uint32_t *line);

/* Checks a sheet and runs it. The text of its shows and totals is in the first *written bytes of out, the rest of out is as
 * it was; refusals 7, 8 and 9 leave the text of the earlier lines. With 9, *line is the apart's, and two names shown before
 * it are too close. *written is set on every return. A reading may have any bits. */
uint32_t boresheet_run(const uint8_t *sheet, size_t sheet_len, const double *readings, size_t readings_len,
                       uint8_t *out, size_t out_len, uint32_t *line, uint64_t *written);

#ifdef __cplusplus
}
#endif

#endif
