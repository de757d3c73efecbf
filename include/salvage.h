/* salvage.h: what comes back of a damaged image of a map, as C calls it.
 *
 * A drive with a worn page gives an image with bad records. castribba_salvage writes an image that every
 * other call accepts, castribba_salvage_report says what was removed or changed on the way:
 *     1   a part of a record at the end goes
 *     2   records that are bad by themselves go: kind, unused field, zero counter
 *     3   records that are not above the last one kept go
 *     4   in order, a record goes whose limit is full or whose need went: an entry dot needs a map clock that
 *         has seen it, a value its entry and a dot of its own, a value dot its value, a waiting key its clock
 *     5   gaps in the indexes are closed, removals that wait for the same clock are united with their 16
 *         lowest keys, and all is put in order
 * An accepted image comes back unchanged with an empty report, and only those have one. Nothing is
 * invented: each record written is one of the input's, up to its index. docs/FORMAT.md has the steps in full.
 *
 * What comes back is a good image, and not what was there:
 * - A setting that was lost counts as removed in a merge wherever the map clock's dot came back: where
 *   another party is well, take its map and do not merge this one into it.
 * - An actor whose map clock dot was lost would count from 1 again, and so would one that takes the map of
 *   a party that had not heard all of its updates: it takes a new actor number.
 * - Damage that leaves a record good and in order is not seen: a changed value is a value.
 *
 * A call answers a word. The archive is x86-64 System V code, reentrant, and needs `memcpy` and `memset` at
 * most: castribba_common.h has that in full, and the numbers. Refusals, in this order: 2 for an input of more than
 * 28,800 bytes, 10 for a buffer shorter than the answer, and no others.
 */
#ifndef CASTRIBBA_SALVAGE_H
#define CASTRIBBA_SALVAGE_H

#include "castribba_common.h"

#ifdef __cplusplus
extern "C" {
#endif

/* A record of the report: the place in the input, from 0, little-endian in four bytes, and the step in one.
 * Places ascend, each at most once; a part of a record at the end has the place behind the last whole one. */
#define CASTRIBBA_TOLD 5
/* No report is longer: 1,801 records. */
#define CASTRIBBA_LONGEST_REPORT 9005

/* `out` receives the image that came back: no longer than the input, and at most CASTRIBBA_LONGEST_MAP. */
uint64_t castribba_salvage(const uint8_t *image, size_t image_len, uint8_t *out, size_t out_len);
/* `out` receives the report, empty where the image is accepted as it is. */
uint64_t castribba_salvage_report(const uint8_t *image, size_t image_len, uint8_t *out,
                                  size_t out_len);

#ifdef __cplusplus
}
#endif

#endif
