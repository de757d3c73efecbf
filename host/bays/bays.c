/* bays.c: the loader's calls on small maps, accepted and refused: the word, the bytes written and the
 * bytes left alone. */
#include <loader.h>

enum { ALL = CASTRIBBA_BAYS * CASTRIBBA_REPORT };

#define CHECKS_NAME "bays"
#define CHECKS_OUT (ALL + 5)
#include "../checks.h"

/* Bay 1: 5 under {1:1} is strictly below 400 under {1:2}, and 300 under {2:1} is beside both.
 * Bay 3: 70 twice, under {1:1} and {2:1}. Bay 24: an entry without a value. Key 25 is no bay. */
static const uint8_t MAP[] = {
    ROW(1, 0, 1, 0, 2),  ROW(1, 0, 2, 0, 1),  ROW(2, 0, 1, 1, 2),   ROW(2, 0, 2, 1, 1),
    ROW(2, 0, 1, 3, 1),  ROW(2, 0, 2, 3, 1),  ROW(2, 0, 1, 24, 1),  ROW(2, 0, 1, 25, 1),
    ROW(3, 0, 0, 1, 5),  ROW(3, 1, 0, 1, 400), ROW(3, 2, 0, 1, 300), ROW(3, 0, 0, 3, 70),
    ROW(3, 1, 0, 3, 70), ROW(3, 0, 0, 25, 9), ROW(4, 0, 1, 1, 1),   ROW(4, 1, 1, 1, 2),
    ROW(4, 2, 2, 1, 1),  ROW(4, 0, 1, 3, 1),  ROW(4, 1, 2, 3, 1),   ROW(4, 0, 1, 25, 1)};
/* the same values of bay 1 in another order */
static const uint8_t REORDERED[] = {
    ROW(1, 0, 1, 0, 2),   ROW(1, 0, 2, 0, 1), ROW(2, 0, 1, 1, 2), ROW(2, 0, 2, 1, 1),
    ROW(3, 0, 0, 1, 300), ROW(3, 1, 0, 1, 400), ROW(3, 2, 0, 1, 5), ROW(4, 0, 2, 1, 1),
    ROW(4, 1, 1, 1, 2),   ROW(4, 2, 1, 1, 1)};
/* the same bay, each value set by another */
static const uint8_t WITH_ORIGINS[] = {
    ROW(1, 0, 1, 0, 2),   ROW(1, 0, 2, 0, 1), ROW(2, 0, 1, 1, 2), ROW(2, 0, 2, 1, 1),
    ROW(3, 0, 65535, 1, 300), ROW(3, 1, 1, 1, 400), ROW(3, 2, 0, 1, 5), ROW(4, 0, 2, 1, 1),
    ROW(4, 1, 1, 1, 2),   ROW(4, 2, 1, 1, 1)};
/* bay 3 of the first map, its equal values set by two */
static const uint8_t AGREED_BY_TWO[] = {
    ROW(1, 0, 1, 0, 1),  ROW(1, 0, 2, 0, 1),  ROW(2, 0, 1, 3, 1), ROW(2, 0, 2, 3, 1),
    ROW(3, 0, 7, 3, 70), ROW(3, 1, 8, 3, 70), ROW(4, 0, 1, 3, 1), ROW(4, 1, 2, 3, 1)};
static const uint8_t BAD_KIND[] = {ROW(13, 0, 0, 0, 0)};
static const uint8_t OUTSIDE_CLOCK[] = {ROW(2, 0, 1, 5, 1)};
static const uint8_t TOO_LONG[CASTRIBBA_LONGEST_MAP + 1];

static const uint8_t BAY_1[] = {2, 1, 1, EIGHT(300)};
static const uint8_t BAY_3[] = {2, 0, 1, EIGHT(70)};
static const uint8_t NONE[CASTRIBBA_REPORT];

int main(void)
{
    uint8_t all[ALL];
    paint();
    memset(all, 0, sizeof all);
    memcpy(all, BAY_1, sizeof BAY_1);
    memcpy(all + 2 * CASTRIBBA_REPORT, BAY_3, sizeof BAY_3);

    gives("a bay whose values differ", castribba_bay(IMAGE(MAP), 1, OUT), IMAGE(BAY_1));
    gives("its values in another order", castribba_bay(IMAGE(REORDERED), 1, OUT),
          IMAGE(BAY_1));
    gives("its values set by others", castribba_bay(IMAGE(WITH_ORIGINS), 1, OUT), IMAGE(BAY_1));
    gives("a bay whose values agree, set by two", castribba_bay(IMAGE(AGREED_BY_TWO), 3, OUT),
          IMAGE(BAY_3));
    gives("a bay whose values agree", castribba_bay(IMAGE(MAP), 3, OUT), IMAGE(BAY_3));
    gives("a bay without an entry", castribba_bay(IMAGE(MAP), 2, OUT), IMAGE(NONE));
    gives("a bay without a value", castribba_bay(IMAGE(MAP), 24, OUT), IMAGE(NONE));
    gives("no map", castribba_bay(NULL, 0, 1, OUT), IMAGE(NONE));
    gives("just room enough", castribba_bay(IMAGE(MAP), 1, out, CASTRIBBA_REPORT), IMAGE(BAY_1));
    gives("all bays", castribba_bays(IMAGE(MAP), OUT), all, sizeof all);

    refuses("bay 0", castribba_bay(IMAGE(MAP), 0, OUT), 14);
    refuses("bay 25", castribba_bay(IMAGE(MAP), 25, OUT), 14);
    refuses("bay 25 before a short buffer", castribba_bay(IMAGE(MAP), 25, out, 0), 14);
    refuses("a bad image before bay 25", castribba_bay(IMAGE(BAD_KIND), 25, out, 0), 1);
    refuses("a long image", castribba_bay(IMAGE(TOO_LONG), 1, OUT), 2);
    refuses("unrelated records", castribba_bay(IMAGE(OUTSIDE_CLOCK), 1, OUT), 3);
    refuses("a short buffer", castribba_bay(IMAGE(MAP), 1, out, CASTRIBBA_REPORT - 1), 10);
    refuses("a short buffer for all", castribba_bays(IMAGE(MAP), out, ALL - 1), 10);
    refuses("a bad image for all", castribba_bays(IMAGE(BAD_KIND), out, 0), 1);

    printf("bays: %d checks, %d differences\n", checks, failures);
    return failures != 0;
}
