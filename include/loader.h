/* loader.h: the boot loader's choice, as C calls it.
 *
 * Keys 1 to 24 of a settings map are bays. Of a bay's values, those whose clock is strictly below
 * another's are dropped, and the smallest of the rest is taken; who set them, their origins, is not looked
 * at. A report has eleven bytes:
 *     0      how many values remained
 *     1      1 where they differ, else 0
 *     2      1 where there is one, else 0
 *     3-10   the value taken, little-endian
 * A bay without an entry, or without a value, has eleven zeros.
 *
 * Maps travel as images (docs/FORMAT.md), and a call answers a word. The archive is x86-64 System V code,
 * reentrant, and needs `memcpy` at most: castribba_common.h has that in full, and the numbers. Refusals, in
 * this order: 1, 2 and 3 for the image, 14 for a bay outside 1 to 24, 10 for a buffer shorter than the
 * answer.
 */
#ifndef CASTRIBBA_LOADER_H
#define CASTRIBBA_LOADER_H

#include "castribba_common.h"

#ifdef __cplusplus
extern "C" {
#endif

#define CASTRIBBA_BAYS 24
#define CASTRIBBA_REPORT 11

/* `out` receives the report of one bay. */
uint64_t castribba_bay(const uint8_t *map, size_t map_len, uint32_t bay, uint8_t *out,
                       size_t out_len);
/* `out` receives the reports of all bays, in bay order. */
uint64_t castribba_bays(const uint8_t *map, size_t map_len, uint8_t *out, size_t out_len);

#ifdef __cplusplus
}
#endif

#endif
