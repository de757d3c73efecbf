/* stack.c: measures how much stack each call uses, and prints a table in bytes: the calls of
 * castribba.h, or, where LOADER is defined, those of loader.h, or, where SALVAGE is, those of salvage.h.
 *
 * Each call runs on a stack of its own that was painted first; what lost its paint was used. The
 * buffers are static, and what an empty call uses is taken off: the rest is the call's own.
 * A call is run on every pair of the inputs below, from empty to the longest, and on images that are
 * refused late with 1, 2 and 3, or worn: the table has its deepest run on images that are accepted, and on
 * those that are not. Link with -z now, or the linker's own work on a first call is measured too.
 */
#define _XOPEN_SOURCE 700
#include <castribba.h>
#include <loader.h>
#include <salvage.h>

#include <stdio.h>
#include <string.h>
#include <ucontext.h>

enum { PAINT = 0xA5, STACK = 1024 * 1024, RECORD = 16 };
enum { FIRST_KEY = 1, NO_KEY = 200 }; /* bays are keys from 1 on */
enum {
    MOST_DOTS = CASTRIBBA_MOST_DOTS,
    MOST_ENTRIES = CASTRIBBA_MOST_ENTRIES,
    MOST_VALUES = CASTRIBBA_MOST_VALUES,
    MOST_WAITING = CASTRIBBA_MOST_WAITING,
    MOST_KEYS = CASTRIBBA_MOST_KEYS
};

typedef struct image {
    uint8_t bytes[CASTRIBBA_LONGEST_MAP + RECORD];
    size_t len;
} image;

static void add(image *to, uint8_t kind, unsigned index, unsigned actor, unsigned key,
                uint64_t number)
{
    uint8_t *bytes = to->bytes + to->len;
    bytes[0] = kind;
    bytes[1] = (uint8_t)index;
    for (int place = 0; place < 2; place++)
        bytes[2 + place] = (uint8_t)(actor >> 8 * place);
    for (int place = 0; place < 4; place++)
        bytes[4 + place] = (uint8_t)(key >> 8 * place);
    for (int place = 0; place < 8; place++)
        bytes[8 + place] = (uint8_t)(number >> 8 * place);
    to->len += RECORD;
}

/* A map with all that fits: every call has the most to do. The counters of its map clock are
 * `seen`, of everything else `held`; with `keys_from` two maps have the same keys or different. */
static void fill_map(image *map, uint64_t seen, uint64_t held, unsigned keys_from)
{
    for (unsigned actor = 0; actor < MOST_DOTS; actor++)
        add(map, 1, 0, actor, 0, seen);
    for (unsigned key = 0; key < MOST_ENTRIES; key++)
        for (unsigned actor = 0; actor < MOST_DOTS; actor++)
            add(map, 2, 0, actor, keys_from + key, held);
    for (unsigned key = 0; key < MOST_ENTRIES; key++)
        for (unsigned index = 0; index < MOST_VALUES; index++)
            add(map, 3, index, index + 1, keys_from + key, index);
    for (unsigned key = 0; key < MOST_ENTRIES; key++)
        for (unsigned index = 0; index < MOST_VALUES; index++)
            for (unsigned actor = 0; actor < MOST_DOTS; actor++)
                add(map, 4, index, actor, keys_from + key, held + (actor == index));
    for (unsigned index = 0; index < MOST_WAITING; index++)
        for (unsigned actor = 0; actor < MOST_DOTS; actor++)
            add(map, 5, index, actor, 0, seen + 1 + index);
    for (unsigned key = 0; key < MOST_KEYS; key++)
        for (unsigned index = 0; index < MOST_WAITING; index++)
            add(map, 6, index, 0, keys_from + key, 0);
}

static void fill_removal(image *op, uint64_t counter, unsigned keys_from)
{
    add(op, 7, 0, 0, 0, 0);
    for (unsigned actor = 0; actor < MOST_DOTS; actor++)
        add(op, 8, 0, actor, 0, counter);
    for (unsigned key = 0; key < MOST_KEYS; key++)
        add(op, 9, 0, 0, keys_from + key, 0);
}

static void fill_update(image *op, unsigned key, uint64_t counter)
{
    add(op, 10, 0, 1, key, counter);
    add(op, 11, 0, 1, 0, 7);
    for (unsigned actor = 0; actor < MOST_DOTS; actor++)
        add(op, 12, 0, actor, 0, counter);
}

static void fill_clock(image *clock, uint64_t counter)
{
    for (unsigned actor = 0; actor < MOST_DOTS; actor++)
        add(clock, 1, 0, actor, 0, counter);
}

/* maps: accepted ones first, then those that are refused */
enum { ACCEPTED = 6, LATE_1 = ACCEPTED, LATE_2, LATE_3, UNITED, WORN, TOO_LONG, MAPS, OPERATIONS = 6, CLOCKS = 4 };
static image maps[MAPS], operations[OPERATIONS], clocks[CLOCKS]; /* the first of each is empty */

/* the kind of the last record */
static uint8_t *last_record(image *map)
{
    return map->bytes + map->len - RECORD;
}

/* a dot of a waiting clock of a full map */
static uint8_t *waiting_dot(image *map, unsigned index, unsigned actor)
{
    enum { KEYS = MOST_WAITING * MOST_KEYS, DOTS = MOST_WAITING * MOST_DOTS };
    return map->bytes + map->len - RECORD * (KEYS + DOTS - index * MOST_DOTS - actor);
}

static void fill(void)
{
    add(&maps[1], 1, 0, 1, 0, 1);
    /* among these a merge keeps entries, drops them, and finds them on one side only */
    fill_map(&maps[2], 9, 9, FIRST_KEY);
    fill_map(&maps[3], 9, 3, FIRST_KEY);
    fill_map(&maps[4], 3, 3, FIRST_KEY + MOST_ENTRIES / 2);
    fill_map(&maps[5], 3, 2, FIRST_KEY);
    maps[LATE_1] = maps[2];
    last_record(&maps[LATE_1])[8] = 1; /* a waiting key has no number */
    maps[LATE_2] = maps[2];
    maps[LATE_2].len -= RECORD;
    add(&maps[LATE_2], 6, 0, 0, FIRST_KEY + MOST_KEYS, 0); /* a key too many under one removal */
    maps[LATE_3] = maps[2];
    last_record(&maps[LATE_3])[1] = 200; /* a waiting key with no clock */
    for (unsigned key = 0; key < MOST_KEYS - 1; key++)
        last_record(&maps[LATE_3])[-(int)(RECORD * MOST_WAITING * (key + 1)) + 1] = 200;
    maps[UNITED] = maps[2]; /* all waiting clocks are equal */
    for (unsigned index = 1; index < MOST_WAITING; index++)
        for (unsigned actor = 0; actor < MOST_DOTS; actor++)
            waiting_dot(&maps[UNITED], index, actor)[8] = waiting_dot(&maps[UNITED], 0, actor)[8];
    maps[WORN].len = CASTRIBBA_LONGEST_MAP;
    memset(maps[WORN].bytes, 0xFF, maps[WORN].len);
    maps[TOO_LONG] = maps[2];
    maps[TOO_LONG].len += 1;

    fill_removal(&operations[1], 9, FIRST_KEY);
    fill_removal(&operations[2], 12, FIRST_KEY);
    fill_update(&operations[3], FIRST_KEY, 10);
    fill_update(&operations[4], NO_KEY, 10);
    fill_update(&operations[5], FIRST_KEY, 17);

    fill_clock(&clocks[1], 1);
    fill_clock(&clocks[2], 10);
    fill_clock(&clocks[3], 20);
}

static uint8_t out[CASTRIBBA_LONGEST_MAP];

static uint64_t number_of(const image *map)
{
#if defined LOADER
    return castribba_bays(map->bytes, map->len, out, sizeof out) >> 32;
#elif defined SALVAGE
    return castribba_salvage_report(map->bytes, map->len, out, sizeof out);
#else
    return castribba_len(map->bytes, map->len) >> 32;
#endif
}

/* An input that is refused where it should not be, or early, would measure less than the call needs. */
static int inputs_are_images(void)
{
#ifdef SALVAGE
    /* how long their reports are; one number is refused */
    static const uint64_t numbers[MAPS] = {
        [LATE_1] = CASTRIBBA_TOLD,
        [LATE_2] = CASTRIBBA_TOLD,
        [LATE_3] = CASTRIBBA_TOLD * MOST_KEYS,
        [UNITED] = CASTRIBBA_TOLD * (MOST_WAITING - 1) * (MOST_DOTS + MOST_KEYS),
        [WORN] = CASTRIBBA_TOLD * CASTRIBBA_LONGEST_MAP / RECORD,
        [TOO_LONG] = (uint64_t)2 << 32};
#else
    static const uint64_t numbers[MAPS] = {
        [LATE_1] = 1, [LATE_2] = 2, [LATE_3] = 3, [UNITED] = 3, [WORN] = 1, [TOO_LONG] = 2};
#endif
    int all = 1;
    for (int map = 0; map < MAPS; map++)
        all = all && number_of(&maps[map]) == numbers[map];
#if !defined LOADER && !defined SALVAGE
    uint64_t gap = (uint64_t)11 << 32;
    for (int op = 1; op < OPERATIONS; op++) {
        uint64_t answer = castribba_validate_op(maps[0].bytes, 0, operations[op].bytes,
                                                operations[op].len);
        all = all && (answer == 0 || answer == gap);
    }
    for (int clock = 0; clock < CLOCKS; clock++)
        all = all && castribba_reset_remove(maps[0].bytes, 0, clocks[clock].bytes,
                                            clocks[clock].len, out, sizeof out) == 0;
#endif
    return all;
}

/* The calls, on the inputs that stand in these. */

static const image *first, *second;
static uint64_t word;
static castribba_clock lent;
#if !defined LOADER && !defined SALVAGE
/* peers whose floor is full */
static castribba_clock peers[CASTRIBBA_MOST_PEERS];
#endif
#if !defined LOADER && !defined SALVAGE
static castribba_pieces reader;
#endif

#define FIRST first->bytes, first->len
#define SECOND second->bytes, second->len
#define OUT out, sizeof out
#define ROOM sizeof out
#define CALL(name, ...)                             \
    static void run_##name(void)                    \
    {                                               \
        word = castribba_##name(__VA_ARGS__);       \
    }

/* what running any call takes, the call itself left out */
static __attribute__((noinline)) uint64_t castribba_nothing(void)
{
    __asm__ volatile("");
    return 0;
}

CALL(nothing)
#if defined LOADER
CALL(bay, FIRST, FIRST_KEY, OUT)
CALL(bays, FIRST, OUT)
#elif defined SALVAGE
CALL(salvage, FIRST, OUT)
CALL(salvage_report, FIRST, OUT)
#else
CALL(apply, FIRST, SECOND, OUT)
CALL(apply_deleted, FIRST, SECOND, ROOM)
CALL(merge, FIRST, SECOND, OUT)
CALL(reset_remove, FIRST, SECOND, OUT)
CALL(reset_remove_deleted, FIRST, SECOND, ROOM)
CALL(update, FIRST, 1, FIRST_KEY, 7, 1, OUT)
CALL(rm_get, FIRST, FIRST_KEY, OUT)
CALL(rm_read_ctx, FIRST, FIRST_KEY, OUT)
CALL(get, FIRST, FIRST_KEY, OUT)
CALL(len, FIRST)
CALL(len_count, FIRST)
CALL(validate_op, FIRST, SECOND)
CALL(validate_op_start, FIRST, SECOND)
CALL(validate_op_end, FIRST, SECOND)
CALL(ready, FIRST, SECOND)
CALL(ready_actor, FIRST, SECOND)
CALL(ready_counter, FIRST, SECOND)
CALL(validate_merge, FIRST, SECOND)
CALL(validate_merge_actor, FIRST, SECOND)
CALL(validate_merge_counter, FIRST, SECOND)
CALL(validate_merge_our_key, FIRST, SECOND)
CALL(validate_merge_their_key, FIRST, SECOND)
CALL(catch_up, FIRST, FIRST, SECOND)
CALL(catch_up_place, FIRST, FIRST, SECOND)
CALL(clock_advance, &lent, 3, 5)
CALL(differences, FIRST, SECOND, OUT)
CALL(floor, peers, CASTRIBBA_MOST_PEERS, &lent)
CALL(pieces_begin, &reader)
CALL(pieces_take, &reader, FIRST)
CALL(pieces_end, &reader, OUT)
#endif

/* What is lent to the calls, as it stands before each: a clock that grows, a reader that is open, or has
 * taken the whole image where the end is what is run. */
static void lend(void (*run)(void), int map)
{
    lent.len = (size_t)map;
    for (int dot = 0; dot < MOST_DOTS; dot++)
        lent.dots[dot] = (castribba_dot){.actor = (uint16_t)(2 * dot), .counter = 1};
#if !defined LOADER && !defined SALVAGE
    for (int peer = 0; peer < CASTRIBBA_MOST_PEERS; peer++) {
        peers[peer] = lent;
        peers[peer].len = MOST_DOTS;
    }
    castribba_pieces_begin(&reader);
    if (run == run_pieces_end)
        castribba_pieces_take(&reader, FIRST);
#else
    (void)run;
#endif
}

/* Running on the painted stack. */

static _Alignas(64) uint8_t stack[STACK];
static ucontext_t here, there;

static size_t used_by(void (*run)(void))
{
    memset(stack, PAINT, sizeof stack);
    getcontext(&there);
    there.uc_stack.ss_sp = stack;
    there.uc_stack.ss_size = sizeof stack;
    there.uc_link = &here;
    makecontext(&there, run, 0);
    swapcontext(&here, &there);
    size_t untouched = 0;
    while (untouched < sizeof stack && stack[untouched] == PAINT)
        untouched++;
    return sizeof stack - untouched;
}

static size_t larger(size_t one, size_t other)
{
    return one > other ? one : other;
}

/* on images that are accepted, and on pairs of which one is refused */
typedef struct depths {
    size_t accepted, refused;
} depths;

static depths deepest(void (*run)(void), const image *seconds, int count)
{
    depths most = {0, 0};
    for (int map = 0; map < MAPS; map++)
        for (int other = 0; other < count; other++) {
            first = &maps[map];
            second = &seconds[other];
            lend(run, map);
            size_t used = used_by(run);
            if (map < ACCEPTED && (seconds != maps || other < ACCEPTED))
                most.accepted = larger(most.accepted, used);
            else
                most.refused = larger(most.refused, used);
        }
    return most;
}

int main(void)
{
    static const struct {
        const char *name;
        void (*run)(void);
        const image *seconds;
        int count;
    } calls[] = {
#if defined LOADER
        {"castribba_bay", run_bay, clocks, 1},
        {"castribba_bays", run_bays, clocks, 1},
#elif defined SALVAGE
        {"castribba_salvage", run_salvage, clocks, 1},
        {"castribba_salvage_report", run_salvage_report, clocks, 1},
#else
        {"castribba_apply", run_apply, operations, OPERATIONS},
        {"castribba_apply_deleted", run_apply_deleted, operations, OPERATIONS},
        {"castribba_merge", run_merge, maps, MAPS},
        {"castribba_reset_remove", run_reset_remove, clocks, CLOCKS},
        {"castribba_reset_remove_deleted", run_reset_remove_deleted, clocks, CLOCKS},
        {"castribba_update", run_update, clocks, 1},
        {"castribba_rm_get", run_rm_get, clocks, 1},
        {"castribba_rm_read_ctx", run_rm_read_ctx, clocks, 1},
        {"castribba_get", run_get, clocks, 1},
        {"castribba_len", run_len, clocks, 1},
        {"castribba_len_count", run_len_count, clocks, 1},
        {"castribba_validate_op", run_validate_op, operations, OPERATIONS},
        {"castribba_validate_op_start", run_validate_op_start, operations, OPERATIONS},
        {"castribba_validate_op_end", run_validate_op_end, operations, OPERATIONS},
        {"castribba_ready", run_ready, operations, OPERATIONS},
        {"castribba_ready_actor", run_ready_actor, operations, OPERATIONS},
        {"castribba_ready_counter", run_ready_counter, operations, OPERATIONS},
        {"castribba_validate_merge", run_validate_merge, maps, MAPS},
        {"castribba_validate_merge_actor", run_validate_merge_actor, maps, MAPS},
        {"castribba_validate_merge_counter", run_validate_merge_counter, maps, MAPS},
        {"castribba_validate_merge_our_key", run_validate_merge_our_key, maps, MAPS},
        {"castribba_validate_merge_their_key", run_validate_merge_their_key, maps, MAPS},
        {"castribba_catch_up", run_catch_up, operations, OPERATIONS},
        {"castribba_catch_up_place", run_catch_up_place, operations, OPERATIONS},
        {"castribba_clock_advance", run_clock_advance, clocks, 1},
        {"castribba_differences", run_differences, maps, MAPS},
        {"castribba_floor", run_floor, clocks, 1},
        {"castribba_pieces_begin", run_pieces_begin, clocks, 1},
        {"castribba_pieces_take", run_pieces_take, clocks, 1},
        {"castribba_pieces_end", run_pieces_end, clocks, 1},
#endif
    };
    fill();
    if (!inputs_are_images()) {
        printf("stack: FAILED: an input is not the image that it should be\n");
        return 1;
    }
    size_t empty = used_by(run_nothing);
    printf("%-36s %10s %10s\n", "call", "accepted", "refused");
    for (size_t place = 0; place < sizeof calls / sizeof calls[0]; place++) {
        depths used = deepest(calls[place].run, calls[place].seconds, calls[place].count);
        if (larger(used.accepted, used.refused) == sizeof stack) {
            printf("stack: FAILED at %s: it uses more than is painted\n", calls[place].name);
            return 1;
        }
        printf("%-36s %10zu %10zu\n", calls[place].name, used.accepted - empty, used.refused - empty);
    }
    return 0;
}
