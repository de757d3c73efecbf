/* handover.c: a partner's controller hands over operations that are to bring our map to theirs, acted out
 * through castribba_catch_up and printed for a reader.
 *
 * The list is taken only where the call answers 0. No heap: every buffer is static.
 */
#include <castribba.h>

#include <inttypes.h>
#include <stdio.h>
#include <stdlib.h>
#include <string.h>

typedef struct image {
    uint8_t bytes[CASTRIBBA_LONGEST_MAP];
    size_t len;
} image;

#define HELD(held) (held)->bytes, (held)->len

static image ours, theirs, made, next;
static uint8_t list[11 * 3 * CASTRIBBA_LONGEST_OPERATION];
static size_t ends[4]; /* where each of the three operations begins, and the end of the last */

/* Telling the story, and stopping it where it goes wrong. */

static const char *step = "start";

static void begin(const char *title)
{
    step = title;
    printf("\n%s\n", title);
}

static void check(int holds, const char *what)
{
    if (!holds) {
        fprintf(stderr, "handover: FAILED in step '%s': %s\n", step, what);
        exit(1);
    }
}

/* What a call wrote becomes the image. */
static void take(image *into, uint64_t word)
{
    check(CASTRIBBA_NUMBER(word) == CASTRIBBA_DONE, "a call was refused");
    into->len = CASTRIBBA_LENGTH(word);
}

/* `made` applied to a map. */
static void apply_to(image *map)
{
    take(&next, castribba_apply(HELD(map), HELD(&made), next.bytes, sizeof next.bytes));
    *map = next;
}

/* The partner applies `made`, and puts it behind the others of the list. */
static void propose(int place)
{
    apply_to(&theirs);
    memcpy(list + ends[place], made.bytes, made.len);
    ends[place + 1] = ends[place] + made.len;
}

/* What the list is answered with, and whose number it is: a map's own comes first. */
static void asks(const char *who, size_t len, uint32_t number, uint64_t place)
{
    uint64_t word = castribba_catch_up(HELD(&ours), HELD(&theirs), list, len);
    uint64_t at = castribba_catch_up_place(HELD(&ours), HELD(&theirs), list, len);
    printf("  %s: %" PRIu32 ", %s\n", who, CASTRIBBA_NUMBER(word),
           castribba_number_text(CASTRIBBA_NUMBER(word)));
    if (castribba_len(HELD(&ours)) != 0)
        printf("  that is our own map's number\n");
    else if (castribba_len(HELD(&theirs)) != 0)
        printf("  that is their map's number\n");
    else if (word != 0 && CASTRIBBA_NUMBER(word) < CASTRIBBA_ENDS_ELSEWHERE)
        printf("  that is operation %" PRIu64 "'s number, counted from 0\n", at);
    check(CASTRIBBA_NUMBER(word) == number && CASTRIBBA_LENGTH(word) == 0, "another number");
    check(at == place, "another place");
}

int main(void)
{
    printf("A hand-over\n");
    take(&made, castribba_update(NULL, 0, 1, 5, 40, 0, made.bytes, sizeof made.bytes));
    apply_to(&ours);
    theirs = ours;
    begin("Both start from one map: bay 5 boots image 40");
    asks("an empty list", 0, CASTRIBBA_DONE, 0);

    begin("The partner sets bay 6, sets bay 7, removes bay 5, and hands the three over");
    take(&made, castribba_update(HELD(&theirs), 2, 6, 60, 0, made.bytes, sizeof made.bytes));
    propose(0);
    take(&made, castribba_update(HELD(&theirs), 2, 7, 70, 0, made.bytes, sizeof made.bytes));
    propose(1);
    take(&made, castribba_rm_get(HELD(&theirs), 5, made.bytes, sizeof made.bytes));
    propose(2);
    printf("  a list of %zu bytes, with nothing between the operations\n", ends[3]);
    asks("the list", ends[3], CASTRIBBA_DONE, 0);

    begin("The last one is forgotten");
    asks("the list", ends[2], CASTRIBBA_ENDS_ELSEWHERE, 0);

    begin("Five bytes are lost on the way");
    asks("the list", ends[3] - 5, CASTRIBBA_MALFORMED, 2);

    begin("A byte of the second is damaged");
    list[ends[1] + 1] ^= 1;
    asks("the list", ends[3], CASTRIBBA_MALFORMED, 1);
    list[ends[1] + 1] ^= 1;

    begin("It is sent eleven times over");
    for (size_t copy = 1; copy < 11; copy++)
        memcpy(list + copy * ends[3], list, ends[3]);
    asks("33 operations", 11 * ends[3], CASTRIBBA_TOO_MANY_OPERATIONS, 0);
    asks("30 of them", 10 * ends[3], CASTRIBBA_DONE, 0);

    begin("Our own map is damaged");
    ours.bytes[1] ^= 1;
    asks("the list", ends[3], CASTRIBBA_MALFORMED, 0);
    ours.bytes[1] ^= 1;

    begin("The list was accepted: we take it");
    for (int place = 0; place < 3; place++) {
        made.len = ends[place + 1] - ends[place];
        memcpy(made.bytes, list + ends[place], made.len);
        apply_to(&ours);
    }
    check(ours.len == theirs.len && memcmp(ours.bytes, theirs.bytes, ours.len) == 0, "not their map");
    printf("  our map is theirs, byte for byte: %zu bytes\n", ours.len);
    asks("an empty list", 0, CASTRIBBA_DONE, 0);
    return 0;
}
