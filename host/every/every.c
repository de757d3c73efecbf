/* every.c: calls every function of castribba.h once with an accepted input and once with a refused
 * one, and checks the number, the length, the bytes written and the bytes left alone. Then it runs the
 * examples of the rules in castribba.h, the code of docs/FORMAT.md, and the numbers' texts. */
#include <castribba.h>

#define CHECKS_NAME "every"
#define CHECKS_OUT CASTRIBBA_LONGEST_MAP
#include "../checks.h"
#include "format.h" /* the C code of docs/FORMAT.md */

/* 01's map M: clock {1:1}, entry 5 {1:1} holding ({1:1}, 40). */
static const uint8_t M[] = {ROW(1, 0, 1, 0, 1), ROW(2, 0, 1, 5, 1), ROW(3, 0, 0, 5, 40),
                            ROW(4, 0, 1, 5, 1)};
/* the same dot spent on key 6 */
static const uint8_t M_ON_6[] = {ROW(1, 0, 1, 0, 1), ROW(2, 0, 1, 6, 1), ROW(3, 0, 0, 6, 40),
                                 ROW(4, 0, 1, 6, 1)};
static const uint8_t ONLY_CLOCK[] = {ROW(1, 0, 1, 0, 1)};
static const uint8_t OTHER_CLOCK[] = {ROW(1, 0, 2, 0, 1)};
static const uint8_t BOTH_CLOCKS[] = {ROW(1, 0, 1, 0, 1), ROW(1, 0, 2, 0, 1)};
static const uint8_t SPENT[] = {ROW(1, 0, 1, 0, UINT64_MAX)};
static const uint8_t REMOVAL[] = {ROW(7, 0, 0, 0, 0), ROW(8, 0, 1, 0, 1), ROW(9, 0, 0, 5, 0)};
static const uint8_t REMOVAL_OF_NONE[] = {ROW(7, 0, 0, 0, 0), ROW(9, 0, 0, 6, 0)};
/* set by 7 */
static const uint8_t UPDATE[] = {ROW(10, 0, 1, 5, 2), ROW(11, 0, 7, 0, 41), ROW(12, 0, 1, 0, 2)};
static const uint8_t M_UPDATED[] = {ROW(1, 0, 1, 0, 2), ROW(2, 0, 1, 5, 2), ROW(3, 0, 7, 5, 41),
                                    ROW(4, 0, 1, 5, 2)};
/* M, set by 7 instead of nobody, and by both */
static const uint8_t M_BY_7[] = {ROW(1, 0, 1, 0, 1), ROW(2, 0, 1, 5, 1), ROW(3, 0, 7, 5, 40),
                                 ROW(4, 0, 1, 5, 1)};
static const uint8_t M_TWICE[] = {ROW(1, 0, 1, 0, 1), ROW(2, 0, 1, 5, 1), ROW(3, 0, 0, 5, 40),
                                  ROW(3, 0, 7, 5, 40), ROW(4, 0, 1, 5, 1)};
static const uint8_t M_UPDATE[] = {ROW(10, 0, 1, 5, 1), ROW(11, 0, 0, 0, 40), ROW(12, 0, 1, 0, 1)};
static const uint8_t UPDATE_ON_6[] = {ROW(10, 0, 1, 6, 2), ROW(11, 0, 0, 0, 41)};
/* by actor 2, who had seen three updates of actor 1 */
static const uint8_t UPDATE_BY_2[] = {ROW(10, 0, 2, 5, 1), ROW(11, 0, 0, 0, 42), ROW(12, 0, 1, 0, 3),
                                      ROW(12, 0, 2, 0, 1)};
static const uint8_t BAD_KIND[] = {ROW(13, 0, 0, 0, 0)};
static const uint8_t OUTSIDE_CLOCK[] = {ROW(2, 0, 1, 5, 1)}; /* an entry dot without map clock */
static const uint8_t TOO_LONG[CASTRIBBA_LONGEST_MAP + 1];

static void is(const char *what, uint64_t found, uint64_t expected)
{
    report(found == expected, what);
}

#define REFUSED(number) ((uint64_t)(number) << 32)

static void changing(void)
{
    gives("apply", castribba_apply(IMAGE(M), IMAGE(REMOVAL), OUT), IMAGE(ONLY_CLOCK));
    refuses("apply, a bad kind", castribba_apply(IMAGE(M), IMAGE(BAD_KIND), OUT), 1);
    is("apply_deleted", castribba_apply_deleted(IMAGE(M), IMAGE(REMOVAL), sizeof ONLY_CLOCK), 1);
    is("apply_deleted, a short buffer",
       castribba_apply_deleted(IMAGE(M), IMAGE(REMOVAL), sizeof ONLY_CLOCK - 1), 0);
    is("apply_deleted, an update", castribba_apply_deleted(IMAGE(M), IMAGE(UPDATE), sizeof out), 0);
    gives("merge", castribba_merge(IMAGE(ONLY_CLOCK), IMAGE(OTHER_CLOCK), OUT),
          IMAGE(BOTH_CLOCKS));
    refuses("merge, related records", castribba_merge(IMAGE(M), IMAGE(OUTSIDE_CLOCK), OUT), 3);
    gives("reset_remove", castribba_reset_remove(IMAGE(BOTH_CLOCKS), IMAGE(OTHER_CLOCK), OUT),
          IMAGE(ONLY_CLOCK));
    refuses("reset_remove, a clock too long",
            castribba_reset_remove(IMAGE(M), TOO_LONG, CASTRIBBA_LONGEST_CLOCK + 1, OUT), 2);
    is("reset_remove_deleted", castribba_reset_remove_deleted(IMAGE(M), IMAGE(ONLY_CLOCK), 0), 1);
    is("reset_remove_deleted, a short buffer",
       castribba_reset_remove_deleted(IMAGE(M), IMAGE(OTHER_CLOCK), sizeof M - 1), 0);
    is("reset_remove_deleted, a bad length",
       castribba_reset_remove_deleted(IMAGE(M), ONLY_CLOCK, sizeof ONLY_CLOCK - 1, sizeof out), 0);
}

static void making(void)
{
    gives("update", castribba_update(IMAGE(M), 1, 5, 41, 7, OUT), IMAGE(UPDATE));
    gives("update, no origin", castribba_update(NULL, 0, 1, 5, 40, 0, OUT), IMAGE(M_UPDATE));
    refuses("update, the counter spent", castribba_update(IMAGE(SPENT), 1, 5, 41, 7, OUT), 9);
    gives("rm_get", castribba_rm_get(IMAGE(M), 5, OUT), IMAGE(REMOVAL));
    gives("rm_get, no entry", castribba_rm_get(IMAGE(M), 6, OUT), IMAGE(REMOVAL_OF_NONE));
    refuses("rm_get, a short buffer", castribba_rm_get(IMAGE(M), 5, out, sizeof REMOVAL - 1), 10);
    gives("rm_read_ctx", castribba_rm_read_ctx(IMAGE(M), 5, OUT), IMAGE(REMOVAL));
    refuses("rm_read_ctx, a bad length", castribba_rm_read_ctx(M, sizeof M - 1, 5, OUT), 1);
}

/* An origin moves with its value, and decides nothing. */
static void origins(void)
{
    gives("an origin put", castribba_apply(IMAGE(M), IMAGE(UPDATE), OUT), IMAGE(M_UPDATED));
    gives("an origin read", castribba_get(IMAGE(M_BY_7), 5, OUT), IMAGE(M_BY_7));
    gives("an origin merged in", castribba_merge(NULL, 0, IMAGE(M_BY_7), OUT), IMAGE(M_BY_7));
    gives("ours stays where clocks are equal", castribba_merge(IMAGE(M), IMAGE(M_BY_7), OUT), IMAGE(M));
    gives("and theirs with them", castribba_merge(IMAGE(M_BY_7), IMAGE(M), OUT), IMAGE(M_BY_7));
    gives("a newer value, whoever set it", castribba_merge(IMAGE(M_BY_7), IMAGE(M_UPDATED), OUT),
          IMAGE(M_UPDATED));
    gives("an origin after a reset of others",
          castribba_reset_remove(IMAGE(M_BY_7), IMAGE(OTHER_CLOCK), OUT), IMAGE(M_BY_7));
    is("two records for one value", castribba_len(IMAGE(M_TWICE)), REFUSED(1));
}

static void reading(void)
{
    gives("get", castribba_get(IMAGE(M), 5, OUT), IMAGE(M));
    gives("get, no entry", castribba_get(IMAGE(M), 6, OUT), IMAGE(ONLY_CLOCK));
    refuses("get, a short buffer", castribba_get(IMAGE(M), 5, out, sizeof M - 1), 10);
    is("len", castribba_len(IMAGE(M)), 0);
    is("len_count", castribba_len_count(IMAGE(M)), 1);
    is("len, too long", castribba_len(IMAGE(TOO_LONG)), REFUSED(2));
    is("len_count, too long", castribba_len_count(IMAGE(TOO_LONG)), 0);
}

static void validating(void)
{
    is("validate_op", castribba_validate_op(IMAGE(M), IMAGE(UPDATE)), 0);
    is("validate_op_start, none", castribba_validate_op_start(IMAGE(M), IMAGE(UPDATE)), 0);
    is("validate_op_end, none", castribba_validate_op_end(IMAGE(M), IMAGE(UPDATE)), 0);
    is("validate_op, a gap", castribba_validate_op(IMAGE(M), IMAGE(UPDATE_ON_6)), REFUSED(11));
    is("validate_op_start", castribba_validate_op_start(IMAGE(M), IMAGE(UPDATE_ON_6)), 1);
    is("validate_op_end", castribba_validate_op_end(IMAGE(M), IMAGE(UPDATE_ON_6)), 2);

    is("ready, a removal", castribba_ready(IMAGE(ONLY_CLOCK), IMAGE(REMOVAL)), 0);
    is("ready, the next", castribba_ready(IMAGE(M), IMAGE(UPDATE)), 0);
    is("ready_actor, none", castribba_ready_actor(IMAGE(M), IMAGE(UPDATE)), 0);
    is("ready_counter, none", castribba_ready_counter(IMAGE(M), IMAGE(UPDATE)), 0);
    is("ready, not made by update", castribba_ready(IMAGE(M), IMAGE(UPDATE_ON_6)), REFUSED(19));
    is("ready, not made by update, though seen", castribba_ready(IMAGE(SPENT), IMAGE(UPDATE_ON_6)), REFUSED(19));
    is("ready, seen", castribba_ready(IMAGE(M), IMAGE(M_UPDATE)), REFUSED(20));
    is("ready_counter, seen", castribba_ready_counter(IMAGE(M), IMAGE(M_UPDATE)), 0);
    is("ready, its actor's before it", castribba_ready(NULL, 0, IMAGE(UPDATE)), REFUSED(21));
    is("ready_actor, its own", castribba_ready_actor(NULL, 0, IMAGE(UPDATE)), 1);
    is("ready_counter, its own", castribba_ready_counter(NULL, 0, IMAGE(UPDATE)), 1);
    is("ready, another's", castribba_ready(IMAGE(M), IMAGE(UPDATE_BY_2)), REFUSED(21));
    is("ready_actor", castribba_ready_actor(IMAGE(M), IMAGE(UPDATE_BY_2)), 1);
    is("ready_counter", castribba_ready_counter(IMAGE(M), IMAGE(UPDATE_BY_2)), 2);
    is("ready, a map too long", castribba_ready(IMAGE(TOO_LONG), IMAGE(BAD_KIND)), REFUSED(2));
    is("ready, a bad kind", castribba_ready(IMAGE(M), IMAGE(BAD_KIND)), REFUSED(1));
    is("ready, no operation", castribba_ready(IMAGE(M), NULL, 0), REFUSED(3));

    is("validate_merge", castribba_validate_merge(IMAGE(M), IMAGE(M)), 0);
    is("validate_merge_actor, none", castribba_validate_merge_actor(IMAGE(M), IMAGE(M)), 0);
    is("validate_merge_counter, none", castribba_validate_merge_counter(IMAGE(M), IMAGE(M)), 0);
    is("validate_merge_our_key, none", castribba_validate_merge_our_key(IMAGE(M), IMAGE(M)), 0);
    is("validate_merge_their_key, none", castribba_validate_merge_their_key(IMAGE(M), IMAGE(M)), 0);
    is("validate_merge, a dot twice", castribba_validate_merge(IMAGE(M), IMAGE(M_ON_6)),
       REFUSED(12));
    is("validate_merge_actor", castribba_validate_merge_actor(IMAGE(M), IMAGE(M_ON_6)), 1);
    is("validate_merge_counter", castribba_validate_merge_counter(IMAGE(M), IMAGE(M_ON_6)), 1);
    is("validate_merge_our_key", castribba_validate_merge_our_key(IMAGE(M), IMAGE(M_ON_6)), 5);
    is("validate_merge_their_key", castribba_validate_merge_their_key(IMAGE(M), IMAGE(M_ON_6)), 6);
}

/* M and what an operation makes of it, held against lists of that operation. */
static void catching_up(void)
{
    static uint8_t after[CASTRIBBA_LONGEST_MAP], list[34 * sizeof REMOVAL];
    uint64_t word = castribba_apply(IMAGE(M), IMAGE(REMOVAL), after, sizeof after);
    size_t after_len = CASTRIBBA_LENGTH(word);
    for (int op = 0; op < 34; op++)
        memcpy(list + op * sizeof REMOVAL, REMOVAL, sizeof REMOVAL);
    is("catch_up", castribba_catch_up(IMAGE(M), after, after_len, IMAGE(REMOVAL)), 0);
    is("catch_up, nothing to do", castribba_catch_up(IMAGE(M), IMAGE(M), NULL, 0), 0);
    is("catch_up, 32 operations", castribba_catch_up(IMAGE(M), after, after_len, list, 32 * sizeof REMOVAL), 0);
    is("catch_up, nothing done", castribba_catch_up(IMAGE(M), after, after_len, NULL, 0),
       REFUSED(CASTRIBBA_ENDS_ELSEWHERE));
    is("catch_up, 33 operations", castribba_catch_up(IMAGE(M), after, after_len, list, 33 * sizeof REMOVAL),
       REFUSED(CASTRIBBA_TOO_MANY_OPERATIONS));
    is("catch_up, a part of a record", castribba_catch_up(IMAGE(M), after, after_len, list, 2 * sizeof REMOVAL + 1),
       REFUSED(1));
    is("catch_up_place, a part of a record",
       castribba_catch_up_place(IMAGE(M), after, after_len, list, 2 * sizeof REMOVAL + 1), 1);
    is("catch_up, no head", castribba_catch_up(IMAGE(M), after, after_len, list + 16, sizeof REMOVAL - 16),
       REFUSED(3));
    is("catch_up, our map first", castribba_catch_up(M, 15, IMAGE(M_ON_6), list, 1), REFUSED(1));
    is("catch_up_place, our map", castribba_catch_up_place(M, 15, IMAGE(M), list, 1), 0);
    is("catch_up, their map before 17", castribba_catch_up(IMAGE(M), list, 16, list, 33 * sizeof REMOVAL), REFUSED(1));
    is("catch_up_place, none refused", castribba_catch_up_place(IMAGE(M), IMAGE(M), IMAGE(REMOVAL)), 0);
}

/* Field by field: the bytes between an actor and its counter are nobody's. */
static int same_clock(const castribba_clock *one, const castribba_clock *other)
{
    int same = one->len == other->len;
    for (int place = 0; place < 8; place++)
        same = same && one->dots[place].actor == other->dots[place].actor &&
               one->dots[place].counter == other->dots[place].counter;
    return same;
}

static void advances(const char *what, castribba_clock clock, uint16_t actor, uint64_t counter,
                     uint32_t number, castribba_clock expected)
{
    uint64_t word = castribba_clock_advance(&clock, actor, counter);
    report(word == REFUSED(number) && same_clock(&clock, &expected), what);
}

/* Constants that lie in memory that can only be read: a store would end the program. */
static const castribba_clock SEEN = {.dots = {{1, 1}, {3, 7}}, .len = 2};
static const castribba_clock UNORDERED = {.dots = {{3, 1}, {1, 1}}, .len = 2};
static const castribba_clock FULL = {
    .dots = {{0, 1}, {1, 1}, {2, 1}, {3, 1}, {4, 1}, {5, 1}, {6, 1}, {7, 1}}, .len = 8};

static void stores_nothing(const char *what, const castribba_clock *clock, uint16_t actor,
                           uint64_t counter, uint32_t number)
{
    is(what, castribba_clock_advance((castribba_clock *)clock, actor, counter), REFUSED(number));
}

static void advancing(void)
{
    const castribba_clock one = {.dots = {{1, 1}, {3, 1}}, .len = 2};
    const castribba_clock put_between = {.dots = {{1, 1}, {2, 4}, {3, 1}}, .len = 3};
    const castribba_clock raised = {.dots = {{1, 1}, {3, 7}}, .len = 2};
    const castribba_clock nine = {.dots = {{1, 1}}, .len = 9};
    const castribba_clock unordered = {.dots = {{3, 1}, {1, 1}}, .len = 2};
    const castribba_clock zero = {.dots = {{1, 0}}, .len = 1};
    castribba_clock full = {.len = 8};
    for (uint16_t place = 0; place < 8; place++)
        full.dots[place] = (castribba_dot){.actor = place, .counter = 1};

    advances("clock_advance, a new actor", one, 2, 4, 0, put_between);
    advances("clock_advance, a larger counter", one, 3, 7, 0, raised);
    advances("clock_advance, a counter seen", raised, 3, 7, 0, raised);
    advances("clock_advance, a counter of zero", one, 2, 0, 0, one);
    advances("clock_advance, nine dots lent", nine, 1, 2, 2, nine);
    advances("clock_advance, out of order", unordered, 1, 2, 1, unordered);
    advances("clock_advance, a zero counter lent", zero, 1, 2, 1, zero);
    advances("clock_advance, a ninth dot", full, 8, 1, 4, full);

    const castribba_clock painted_behind = {.dots = {{1, 1}, {3, 1}, {9, 9}, {9, 9}}, .len = 2};
    advances("clock_advance, zeros behind len", painted_behind, 3, 7, 0, raised);
    advances("clock_advance, nothing stored behind len", painted_behind, 3, 1, 0, painted_behind);
    stores_nothing("clock_advance, read-only, a counter seen", &SEEN, 3, 7, 0);
    stores_nothing("clock_advance, read-only, out of order", &UNORDERED, 1, 2, 1);
    stores_nothing("clock_advance, read-only, a ninth dot", &FULL, 8, 1, 4);
}

/* A map in pieces, cut within a record; the reader is painted before each begin, and stands at an odd
 * address. */
static struct {
    uint8_t before;
    castribba_pieces reader;
} lent;

static void begins(const uint8_t *image, size_t len, size_t cut)
{
    memset(&lent, PAINT, sizeof lent);
    is("pieces_begin", castribba_pieces_begin(&lent.reader), 0);
    is("pieces_take", castribba_pieces_take(&lent.reader, image, cut), 0);
    is("pieces_take, the rest", castribba_pieces_take(&lent.reader, image + cut, len - cut), 0);
}

/* A call that leaves every byte of the reader from `from` on as it was. */
static void keeps(const char *what, const castribba_pieces *kept, size_t from)
{
    report(memcmp(kept->bytes + from, lent.reader.bytes + from, CASTRIBBA_PIECES - from) == 0, what);
}

static void in_pieces(void)
{
    static castribba_pieces kept;
    begins(IMAGE(M), 21);
    kept = lent.reader;
    refuses("pieces_end, a short buffer", castribba_pieces_end(&lent.reader, out, sizeof M - 1), 10);
    keeps("pieces_end, a short buffer, leaves the reader", &kept, 0);
    gives("pieces_end", castribba_pieces_end(&lent.reader, OUT), IMAGE(M));
    keeps("pieces_end changes the mark alone", &kept, 1);

    kept = lent.reader;
    is("pieces_take, after the end", castribba_pieces_take(&lent.reader, IMAGE(M)), REFUSED(13));
    is("pieces_take, nothing after the end", castribba_pieces_take(&lent.reader, NULL, 0), REFUSED(13));
    refuses("pieces_end, after the end", castribba_pieces_end(&lent.reader, OUT), 13);
    refuses("pieces_end, after the end, nowhere to write", castribba_pieces_end(&lent.reader, NULL, 0), 13);
    keeps("13 leaves the reader", &kept, 0);

    begins(M, sizeof M - 1, 1);
    refuses("pieces_end, a bad length", castribba_pieces_end(&lent.reader, OUT), 1);
    begins(IMAGE(TOO_LONG), 7);
    refuses("pieces_end, too long", castribba_pieces_end(&lent.reader, OUT), 2);
    begins(IMAGE(OUTSIDE_CLOCK), 15);
    kept = lent.reader;
    refuses("pieces_end, related records", castribba_pieces_end(&lent.reader, OUT), 3);
    keeps("a refused pieces_end changes the mark alone", &kept, 1);
    refuses("pieces_end, after a refused end", castribba_pieces_end(&lent.reader, OUT), 13);

    memset(&lent, PAINT, sizeof lent);
    is("pieces_take, not begun", castribba_pieces_take(&lent.reader, IMAGE(M)), REFUSED(13));
    refuses("pieces_end, not begun", castribba_pieces_end(&lent.reader, OUT), 13);
    is("pieces_begin, at once again", castribba_pieces_begin(&lent.reader), 0);
    is("pieces_take, null", castribba_pieces_take(&lent.reader, NULL, 0), 0);
    gives("pieces_end, nothing taken", castribba_pieces_end(&lent.reader, NULL, 0), M, 0);
    is("the byte before the reader", lent.before, PAINT);
}

/* A pointer may be null where its length is 0. */
static void nothing_at_null(void)
{
    gives("merge, both null", castribba_merge(NULL, 0, NULL, 0, OUT), M, 0);
    gives("merge, nowhere to write", castribba_merge(NULL, 0, NULL, 0, NULL, 0), M, 0);
    gives("apply, null", castribba_apply(NULL, 0, IMAGE(M_UPDATE), OUT), IMAGE(M));
    refuses("apply, a null operation", castribba_apply(IMAGE(M), NULL, 0, OUT), 3);
    gives("reset_remove, a null clock", castribba_reset_remove(IMAGE(M), NULL, 0, OUT), IMAGE(M));
    refuses("get, nowhere to write", castribba_get(IMAGE(M), 5, NULL, 0), 10);
    is("len, null", castribba_len(NULL, 0), 0);
    is("validate_merge, null", castribba_validate_merge(NULL, 0, IMAGE(M)), 0);
}

/* The rules of castribba.h, on maps and operations that grow. */

typedef struct image {
    uint8_t bytes[CASTRIBBA_LONGEST_MAP];
    size_t len;
} image;

#define HELD(held) (held)->bytes, (held)->len

/* What a call wrote to `out` becomes the image. */
static void take(const char *what, image *into, uint64_t word)
{
    report(CASTRIBBA_NUMBER(word) == CASTRIBBA_DONE, what);
    into->len = CASTRIBBA_LENGTH(word);
    memcpy(into->bytes, out, into->len);
    paint();
}

static void deliver(image *map, const image *op)
{
    take("an operation delivered", map, castribba_apply(HELD(map), HELD(op), OUT));
}

static image merged(const image *map, const image *other)
{
    static image both;
    take("two maps merged", &both, castribba_merge(HELD(map), HELD(other), OUT));
    return both;
}

static void sets(image *map, uint16_t actor, uint32_t bay, uint64_t value, image *op)
{
    take("an update made", op, castribba_update(HELD(map), actor, bay, value, 0, OUT));
    deliver(map, op);
}

static void boots(const char *what, const image *map, uint32_t bay, uint64_t value)
{
    int count = 0, holds = 1;
    for (size_t place = 0; place < map->len; place += CASTRIBBA_RECORD) {
        record r = record_at(map->bytes, place);
        if (r.kind == CASTRIBBA_VALUE && r.key == bay) {
            count++;
            holds = r.number == value;
        }
    }
    report(holds && count == (value != 0), what);
}

enum { NOTHING = 0 }; /* no bay boots image 0 here */

/* The guard's number, and that an update which is held carries this actor and counter. */
static void asks(const char *what, const image *map, const image *op, uint32_t number, uint64_t actor,
                 uint64_t counter)
{
    report(castribba_ready(HELD(map), HELD(op)) == REFUSED(number) &&
               castribba_ready_actor(HELD(map), HELD(op)) == actor &&
               castribba_ready_counter(HELD(map), HELD(op)) == counter,
           what);
}

/* An update that is next, or a removal. */
static void feed(const char *what, image *map, const image *op)
{
    asks(what, map, op, CASTRIBBA_DONE, 0, 0);
    deliver(map, op);
}

/* By the map clock, which withdraws, or by the entry's. */
static void removes(image *map, uint32_t bay, image *op)
{
    take("a removal made", op, castribba_rm_read_ctx(HELD(map), bay, OUT));
    deliver(map, op);
}

static void removes_by_entry(image *map, uint32_t bay, image *op)
{
    take("a removal made", op, castribba_rm_get(HELD(map), bay, OUT));
    deliver(map, op);
}

static void one_actor_in_order(void)
{
    static image ours, theirs, in_order, bay_5, bay_6, both;
    sets(&ours, 1, 5, 40, &bay_5);
    sets(&ours, 1, 6, 60, &bay_6);

    asks("rule 1: the second is held", &theirs, &bay_6, CASTRIBBA_HOLD, 1, 1);
    deliver(&theirs, &bay_6);
    deliver(&theirs, &bay_5);
    boots("rule 1: bay 5 is lost", &theirs, 5, NOTHING);
    boots("rule 1: bay 6 is there", &theirs, 6, 60);
    both = merged(&ours, &theirs);
    boots("rule 1: a merge loses bay 5 for us too", &both, 5, NOTHING);

    feed("rule 1: the first is the next", &in_order, &bay_5);
    asks("rule 1: the first was seen", &in_order, &bay_5, CASTRIBBA_SEEN, 0, 0);
    is("validate_op asks the bay's entry too",
       castribba_validate_op(HELD(&in_order), HELD(&bay_6)), REFUSED(CASTRIBBA_GAP));
    feed("rule 1: then the second is the next", &in_order, &bay_6);
    boots("rule 1: in order, bay 5 is there", &in_order, 5, 40);
}

/* Each actor's order is kept, and still drives differ: the reader took an update before what its writer
 * had seen. The guard holds it. */
static void what_the_writer_had_seen(void)
{
    static image a, b, c, by_a, by_b, removal;
    sets(&a, 1, 5, 10, &by_a);
    feed("rule 1: the first update", &b, &by_a);
    sets(&b, 2, 5, 40, &by_b);
    asks("rule 1: its writer had seen more", &c, &by_b, CASTRIBBA_HOLD, 1, 1);
    is("validate_op lets it pass", castribba_validate_op(HELD(&c), HELD(&by_b)), 0);
    deliver(&c, &by_b);
    removes(&c, 5, &removal);
    deliver(&b, &removal);
    deliver(&c, &by_a);
    boots("rule 1 broken: one boots the one", &b, 5, 40);
    boots("rule 1 broken: the other the other", &c, 5, 10);
}

/* Two drives, by the guard: B's value has seen A's, which A has removed. */
static void which_removal_withdraws(void)
{
    static image a, b, first, first_removal, by_b, whole, a_before, b_before;
    sets(&a, 1, 5, 10, &first);
    removes(&a, 5, &first_removal);
    feed("rule 2: A's update", &b, &first);
    sets(&b, 2, 5, 40, &by_b);
    feed("rule 2: B's update", &a, &by_b);
    a_before = a;
    b_before = b;

    removes_by_entry(&a, 5, &whole);
    feed("rule 2: rm_get's removal", &b, &whole);
    boots("rule 2: by rm_get it is gone at A", &a, 5, NOTHING);
    boots("rule 2: by rm_get it boots at B", &b, 5, 40);

    a = a_before;
    b = b_before;
    removes(&a, 5, &whole);
    feed("rule 2: rm_read_ctx's removal", &b, &whole);
    boots("rule 2: by rm_read_ctx it is gone at A", &a, 5, NOTHING);
    boots("rule 2: by rm_read_ctx it is gone at B", &b, 5, NOTHING);
    feed("rule 2: a removal again", &b, &first_removal);
    report(same_settings(HELD(&a), HELD(&b)), "rule 2: A and B agree");
}

/* Drives that were given the same have the same settings, and other bytes. */
static void settings_and_bytes(void)
{
    static image a, b, first, removal, by_b;
    sets(&a, 1, 5, 10, &first);
    removes(&a, 5, &removal);
    feed("settings: A's update", &b, &first);
    sets(&b, 2, 5, 40, &by_b);
    feed("settings: B's update", &a, &by_b);
    report(!same_settings(HELD(&a), HELD(&b)), "settings: a removal is still missing");
    feed("settings: A's removal", &b, &removal);
    report(same_settings(HELD(&a), HELD(&b)), "settings: the same");
    report(a.len == 96 && b.len == 80, "settings: other bytes");
    report(!same_settings(HELD(&a), IMAGE(M)) && same_settings(NULL, 0, NULL, 0), "settings: other maps");
    report(!same_settings(IMAGE(M), IMAGE(M_BY_7)), "settings: other origins");
}

static void keeps_of(const char *what, image *ours, const image *theirs, enum keep expected)
{
    static image both;
    both = merged(ours, theirs);
    enum keep keep = kept_of(HELD(&both), HELD(theirs), HELD(ours));
    report(keep == expected, what);
    if (keep == KEEP_THEIRS)
        *ours = *theirs;
    if (keep == KEEP_MERGED)
        *ours = both;
}

/* A merge brings back what was overwritten, though nothing was ever removed, and what was withdrawn. */
static void merges_at_will(void)
{
    static image a, b, c, a_right, b_right, on_6, by_b, again, by_c, removal, both, apart;
    sets(&a, 1, 6, 60, &on_6);
    feed("rule 4: A's update", &b, &on_6);
    sets(&b, 2, 5, 40, &by_b);
    a_right = a;
    b_right = b;
    sets(&b, 2, 5, 41, &again);
    b = merged(&b, &a);
    feed("rule 4: B's first update", &a, &by_b);
    both = merged(&a, &b);
    report(times(record_at((const uint8_t[]){ROW(3, 0, 0, 5, 40)}, 0), HELD(&both)) == 1,
           "rule 4: a merge brings an overwritten value back");
    keeps_of("rule 4: B has all", &a, &b, KEEP_THEIRS);
    boots("rule 4: the choice keeps what is right", &a, 5, 41);
    keeps_of("rule 4: what we know already", &b, &b_right, KEEP_OURS);

    a = a_right;
    b = b_right;
    sets(&c, 3, 5, 41, &by_c);
    feed("rule 4: B's update, at A", &a, &by_b);
    feed("rule 4: C's update, at A", &a, &by_c);
    removes(&b, 5, &removal);
    feed("rule 4: C's update, at B", &b, &by_c);
    boots("rule 4: at B it is withdrawn", &b, 5, 41);
    both = merged(&b, &a);
    report(times(record_at((const uint8_t[]){ROW(3, 0, 0, 5, 40)}, 0), HELD(&both)) == 1,
           "rule 4: a merge brings a withdrawn value back");
    deliver(&both, &removal);
    boots("rule 4: the removal applied again", &both, 5, 41);
    keeps_of("rule 4: B has removed", &a, &b, KEEP_THEIRS);
    boots("rule 4: the choice keeps it withdrawn", &a, 5, 41);

    sets(&a, 1, 7, 70, &on_6);
    sets(&apart, 4, 8, 80, &by_b);
    keeps_of("rule 4: other keys", &a, &apart, KEEP_MERGED);
    boots("rule 4: merged, ours", &a, 7, 70);
    boots("rule 4: merged, theirs", &a, 8, 80);
    sets(&a, 1, 7, 71, &on_6);
    sets(&apart, 4, 7, 81, &by_b);
    keeps_of("rule 4: two values of one key", &a, &apart, KEEP_OURS_AND_ASK);
    boots("rule 4: ours stays", &a, 7, 71);
}

/* All reset at once by a clock that is no map's: values that knew of each other no longer do. */
static void reset_by_some_clock(void)
{
    static const uint8_t of_2[] = {ROW(1, 0, 2, 0, 1)};
    static image a, b, by_a, removal, by_b, c, by_c;
    sets(&a, 1, 5, 10, &by_a);
    feed("rule 5: A's update", &b, &by_a);
    removes(&a, 5, &removal);
    sets(&b, 2, 5, 40, &by_b);
    sets(&c, 3, 5, 41, &by_c);
    feed("rule 5: B's update, at A", &a, &by_b);
    feed("rule 5: C's update, at A", &a, &by_c);
    feed("rule 5: the removal, at B", &b, &removal);
    feed("rule 5: C's update, at B", &b, &by_c);
    report(same_settings(HELD(&a), HELD(&b)), "rule 5: before, all agree");
    take("A reset", &a, castribba_reset_remove(HELD(&a), IMAGE(of_2), OUT));
    take("B reset", &b, castribba_reset_remove(HELD(&b), IMAGE(of_2), OUT));
    report(!same_settings(HELD(&a), HELD(&b)), "rule 5: a reset by some other clock parts them");
}

/* Actor 1 wrote bay 5 in one map, and with the same counter another bay, or the same, in the other. */
static void one_number_twice(void)
{
    static image ours, theirs, other, bay_5, bay_6, again, both;
    sets(&ours, 1, 5, 40, &bay_5);
    sets(&theirs, 1, 6, 60, &bay_6);
    is("rule 3: 12 shows a number used twice",
       castribba_validate_merge(HELD(&ours), HELD(&theirs)), REFUSED(CASTRIBBA_DOUBLE_SPENT));
    both = merged(&ours, &theirs);
    boots("rule 3: a merge drops bay 5", &both, 5, NOTHING);
    boots("rule 3: a merge drops bay 6", &both, 6, NOTHING);
    deliver(&ours, &bay_6);
    boots("rule 3: the other's update counts as seen", &ours, 6, NOTHING);

    sets(&other, 1, 5, 50, &again);
    is("rule 3: the same bay is not shown", castribba_validate_merge(HELD(&ours), HELD(&other)), 0);
    both = merged(&ours, &other);
    boots("rule 3: we keep our value", &both, 5, 40);
    both = merged(&other, &ours);
    boots("rule 3: they keep theirs", &both, 5, 50);
}

static void one_sided_reset(void)
{
    static image ours, theirs, bay_5, bay_6, both;
    sets(&ours, 1, 5, 40, &bay_5);
    deliver(&theirs, &bay_5);
    take("our map reset", &ours, castribba_reset_remove(HELD(&ours), IMAGE(ONLY_CLOCK), OUT));
    is("rule 3: a reset leaves nothing", ours.len, 0);
    both = merged(&ours, &theirs);
    boots("rule 3: a merge brings back what one side reset", &both, 5, 40);

    sets(&ours, 1, 6, 60, &bay_6);
    deliver(&theirs, &bay_6);
    boots("rule 3: the counter began again, and counts as seen", &theirs, 6, NOTHING);
    is("rule 3: 12 shows the reset", castribba_validate_merge(HELD(&theirs), HELD(&ours)),
       REFUSED(CASTRIBBA_DOUBLE_SPENT));
    both = merged(&theirs, &ours);
    boots("rule 3: the merge drops bay 5", &both, 5, NOTHING);
    boots("rule 3: the merge drops bay 6", &both, 6, NOTHING);
}

/* docs/FORMAT.md shows a map, an update and a removal: the ones above. */
static void bytes_of_the_page(void)
{
    static const uint8_t bytes[] = {
#include "format_bytes.h"
    };
    static const uint8_t rows[] = {
#include "format_rows.h"
    };
    uint8_t expected[sizeof M + sizeof UPDATE + sizeof REMOVAL];
    memcpy(expected, M, sizeof M);
    memcpy(expected + sizeof M, UPDATE, sizeof UPDATE);
    memcpy(expected + sizeof M + sizeof UPDATE, REMOVAL, sizeof REMOVAL);
    report(sizeof bytes == sizeof expected && memcmp(bytes, expected, sizeof expected) == 0,
           "the bytes of docs/FORMAT.md");
    report(sizeof rows == sizeof expected && memcmp(rows, expected, sizeof expected) == 0,
           "the numbers of docs/FORMAT.md");
}

/* docs/FORMAT.md: a clock struct to an image and back. */
static void clocks_and_images(void)
{
    const castribba_clock two = {.dots = {{1, 1}, {0x0203, UINT64_MAX - 1}}, .len = 2};
    static const uint8_t bytes[] = {ROW(1, 0, 1, 0, 1), ROW(1, 0, 0x0203, 0, UINT64_MAX - 1)};
    castribba_clock full = {.len = CASTRIBBA_MOST_DOTS}, back;
    uint8_t image[CASTRIBBA_LONGEST_CLOCK];
    for (uint16_t place = 0; place < CASTRIBBA_MOST_DOTS; place++)
        full.dots[place] = (castribba_dot){.actor = place, .counter = 1};

    size_t len = clock_to_image(&two, image);
    report(len == sizeof bytes && memcmp(image, bytes, len) == 0, "a clock's image");
    clock_from_image(&back, image, len);
    report(same_clock(&back, &two), "a clock from its image");
    len = clock_to_image(&full, image);
    is("a full clock's image is accepted", castribba_reset_remove(NULL, 0, image, len, OUT), 0);
    clock_from_image(&back, image, len);
    report(same_clock(&back, &full), "a full clock from its image");
    clock_from_image(&back, IMAGE(M));
    report(back.len == 1 && back.dots[0].actor == 1 && back.dots[0].counter == 1, "a map's clock");
    clock_from_image(&back, NULL, 0);
    is("the empty clock", back.len, 0);
}

/* What differs between M, maps with another value or key, and the empty map; and what the report is refused with. */
static void differing(void)
{
    static const uint8_t other[] = {ROW(1, 0, 1, 0, 1), ROW(2, 0, 1, 5, 1), ROW(3, 0, 0, 5, 41), ROW(4, 0, 1, 5, 1)};
    static const uint8_t beside[] = {ROW(1, 0, 1, 0, 1), ROW(2, 0, 1, 0x0102, 1)};
    static const uint8_t told[] = {1, 5, 0, 0, 0, 2, 2, 1, 0, 0};
    uint8_t few[CASTRIBBA_LONGEST_DIFFERENCES];

    is("a map does not differ from itself", castribba_differences(IMAGE(M), IMAGE(M), few, sizeof few), 0);
    is("another value", castribba_differences(IMAGE(M), IMAGE(other), few, sizeof few), 5);
    report(few[0] == CASTRIBBA_OTHER && few[1] == 5, "class 3 of key 5");
    is("two keys", castribba_differences(IMAGE(M), IMAGE(beside), few, sizeof few), 10);
    report(memcmp(few, told, sizeof told) == 0, "only in the first, only in the second");
    is("no room", castribba_differences(IMAGE(M), NULL, 0, few, 4), (uint64_t)CASTRIBBA_SHORT_BUFFER << 32);
    is("the first image first", castribba_differences(told, 1, NULL, 0, few, sizeof few),
       (uint64_t)CASTRIBBA_MALFORMED << 32);
}

/* The floor of some clocks, of none and of too many; the first bad one decides, and a refusal stores nothing. */
static void flooring(void)
{
    static castribba_clock peers[CASTRIBBA_MOST_PEERS + 1];
    const castribba_clock three = {.dots = {{1, 3}, {4, 2}}, .len = 2};
    const castribba_clock two = {.dots = {{1, 2}, {2, 9}, {4, 2}}, .len = 3};
    const castribba_clock expected = {.dots = {{1, 2}, {4, 2}}, .len = 2};
    castribba_clock floor = {.dots = {{7, 7}}, .len = 1}, before = floor;

    peers[0] = three;
    peers[1] = two;
    is("a floor", castribba_floor(peers, 2, &floor), 0);
    report(same_clock(&floor, &expected) && floor.dots[2].actor == 0, "the smaller counters");
    is("a floor of none", castribba_floor(NULL, 0, &floor), 0);
    is("is empty", floor.len, 0);
    floor = before;
    is("65 peers", castribba_floor(peers, CASTRIBBA_MOST_PEERS + 1, &floor),
       (uint64_t)CASTRIBBA_TOO_MANY_PEERS << 32);
    peers[1].dots[0].counter = 0;
    peers[2].len = 9;
    is("the first bad clock", castribba_floor(peers, 3, &floor), (uint64_t)CASTRIBBA_MALFORMED << 32);
    peers[1].len = 9;
    is("2 before 1 in one", castribba_floor(peers, 3, &floor), (uint64_t)CASTRIBBA_OVER_LIMIT << 32);
    report(same_clock(&floor, &before), "a refusal stores nothing");
}

/* Each number that a call can answer has a text of its own, and every other one the same. */
static void texts(void)
{
    const char *unknown = castribba_number_text(UINT32_MAX);
    for (uint32_t number = 0; number <= 24; number++) {
        const char *text = castribba_number_text(number);
        int known = number <= CASTRIBBA_NO_BAY ||
                    (number >= CASTRIBBA_ENDS_ELSEWHERE && number <= CASTRIBBA_HOLD);
        report((strcmp(text, unknown) != 0) == known, "a number's text");
        for (uint32_t other = 0; known && other < number; other++)
            report(strcmp(text, castribba_number_text(other)) != 0, "two numbers with one text");
    }
}

int main(void)
{
    paint();
    changing();
    making();
    origins();
    reading();
    validating();
    catching_up();
    advancing();
    differing();
    flooring();
    in_pieces();
    nothing_at_null();
    one_actor_in_order();
    what_the_writer_had_seen();
    which_removal_withdraws();
    settings_and_bytes();
    merges_at_will();
    reset_by_some_clock();
    one_number_twice();
    one_sided_reset();
    bytes_of_the_page();
    clocks_and_images();
    texts();
    printf("every: %d checks of the 30 calls and the rules, %d differences\n", checks, failures);
    return failures != 0;
}
