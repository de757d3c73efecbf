/* Maps of the old limits (16 entries, 8 waiting removals) and without origins, put to an older archive and to this
 * one: what the old one answers, this one answers with origin 0, byte for byte, but where the old one says that a
 * limit is broken, and where a damaged byte gives a value an origin, to which the old one answers 1.
 * sleds [STEPS [SEED]]; `run` renames the old archive's calls, so that both are in one program. */
#include <castribba.h>
#include <stdio.h>
#include <stdlib.h>
#include <string.h>

#define MAPS 3
#define OPERATIONS 64
#define OLD_LONGEST 14464

#define WRITES(name, ...) \
    uint64_t old_castribba_##name(__VA_ARGS__, uint8_t *out, size_t out_len);
WRITES(apply, const uint8_t *map, size_t map_len, const uint8_t *op, size_t op_len)
WRITES(merge, const uint8_t *map, size_t map_len, const uint8_t *other, size_t other_len)
WRITES(reset_remove, const uint8_t *map, size_t map_len, const uint8_t *clock, size_t clock_len)
/* an origin came later */
WRITES(update, const uint8_t *map, size_t map_len, uint16_t actor, uint32_t key, uint64_t value)
WRITES(rm_get, const uint8_t *map, size_t map_len, uint32_t key)
WRITES(rm_read_ctx, const uint8_t *map, size_t map_len, uint32_t key)
WRITES(get, const uint8_t *map, size_t map_len, uint32_t key)
uint64_t old_castribba_len_count(const uint8_t *map, size_t map_len);
uint64_t old_castribba_validate_op(const uint8_t *map, size_t map_len, const uint8_t *op, size_t op_len);
uint64_t old_castribba_validate_merge(const uint8_t *map, size_t map_len, const uint8_t *other, size_t other_len);

typedef struct {
    uint8_t bytes[CASTRIBBA_LONGEST_MAP];
    size_t len;
} image;

static image maps[MAPS], operations[OPERATIONS];
static uint8_t here[CASTRIBBA_LONGEST_MAP], there[CASTRIBBA_LONGEST_MAP];
static uint64_t state, asked, refused, wider, given_origin;

static uint32_t below(uint32_t n)
{
    state = state * 6364136223846793005u + 1442695040888963407u;
    return (uint32_t)(state >> 33) % n;
}

/* Both answers: the same word and, where it is 0, the same bytes; or the old one names a limit. */
static int same(const char *call, uint64_t was, uint64_t is)
{
    uint32_t number = CASTRIBBA_NUMBER(was);
    asked++;
    if (number == CASTRIBBA_OVER_LIMIT || number == CASTRIBBA_TOO_MANY_ENTRIES || number == CASTRIBBA_TOO_MANY_WAITING) {
        wider++;
        return 0;
    }
    if (number != CASTRIBBA_DONE) {
        refused++;
    }
    if (was != is || (number == CASTRIBBA_DONE && memcmp(there, here, CASTRIBBA_LENGTH(was)) != 0)) {
        printf("%s: the old archive answers %llx, this one %llx, or other bytes\n", call, (unsigned long long)was, (unsigned long long)is);
        exit(1);
    }
    return number == CASTRIBBA_DONE;
}

static void keep(image *at, uint64_t word)
{
    at->len = CASTRIBBA_LENGTH(word);
    memcpy(at->bytes, here, at->len);
}

#define BOTH(call, room, ...) \
    was = old_castribba_##call(__VA_ARGS__, there, room); \
    is = castribba_##call(__VA_ARGS__, here, room)

/* Sets the origins of an image's values to 0; whether one was another. */
static int without_origins(image *m)
{
    int had = 0;
    for (size_t place = 0; place < m->len; place += CASTRIBBA_RECORD) {
        if (m->bytes[place] == CASTRIBBA_VALUE) {
            had |= m->bytes[place + 2] | m->bytes[place + 3];
            m->bytes[place + 2] = m->bytes[place + 3] = 0;
        }
    }
    return had;
}

/* A damaged image, merged. To one that has an origin the old archive answers 1, and this one what it answers without. */
static void merge_damaged(image *damaged, const image *other)
{
    uint64_t was, is, with;
    BOTH(merge, OLD_LONGEST, damaged->bytes, damaged->len, other->bytes, other->len);
    if (without_origins(damaged)) {
        given_origin++;
        if (was != (uint64_t)CASTRIBBA_MALFORMED << 32) {
            printf("an origin: the old archive answers %llx\n", (unsigned long long)was);
            exit(1);
        }
        with = is;
        BOTH(merge, OLD_LONGEST, damaged->bytes, damaged->len, other->bytes, other->len);
        if (with != is) {
            printf("an origin: %llx, and without it %llx\n", (unsigned long long)with, (unsigned long long)is);
            exit(1);
        }
    }
    same("merge of a damaged image", was, is);
}

static void step(void)
{
    image *m = &maps[below(MAPS)], *o = &operations[below(OPERATIONS)], *other = &maps[below(MAPS)];
    uint16_t actor = (uint16_t)(1 + (m - maps) + MAPS * below(2));
    uint32_t key = 1 + below(20), value = below(1000);
    size_t room = below(8) ? OLD_LONGEST : below(OLD_LONGEST);
    uint64_t was, is;
    uint8_t clock[CASTRIBBA_LONGEST_CLOCK];
    size_t clock_len = 0;

    switch (below(12)) {
    case 0: case 1: case 2:
        was = old_castribba_update(m->bytes, m->len, actor, key, value, there, room);
        is = castribba_update(m->bytes, m->len, actor, key, value, 0, here, room);
        if (same("update", was, is)) keep(o, is);
        break;
    case 3:
        BOTH(rm_get, room, m->bytes, m->len, key);
        if (same("rm_get", was, is)) keep(o, is);
        break;
    case 4:
        BOTH(rm_read_ctx, room, m->bytes, m->len, key);
        if (same("rm_read_ctx", was, is)) keep(o, is);
        break;
    case 5: case 6: case 7: case 8:
        same("validate_op", old_castribba_validate_op(m->bytes, m->len, o->bytes, o->len), castribba_validate_op(m->bytes, m->len, o->bytes, o->len));
        BOTH(apply, room, m->bytes, m->len, o->bytes, o->len);
        if (same("apply", was, is)) keep(m, is);
        break;
    case 9:
        same("validate_merge", old_castribba_validate_merge(m->bytes, m->len, other->bytes, other->len), castribba_validate_merge(m->bytes, m->len, other->bytes, other->len));
        BOTH(merge, room, m->bytes, m->len, other->bytes, other->len);
        if (same("merge", was, is) && below(3) == 0) keep(m, is);
        break;
    case 10:
        /* the other map's clock, or a part of it */
        while (clock_len < other->len && clock_len < sizeof clock && other->bytes[clock_len] == CASTRIBBA_CLOCK_DOT && below(4)) clock_len += CASTRIBBA_RECORD;
        memcpy(clock, other->bytes, clock_len);
        BOTH(reset_remove, room, m->bytes, m->len, clock, clock_len);
        if (same("reset_remove", was, is) && below(8) == 0) keep(m, is);
        break;
    default:
        BOTH(get, room, m->bytes, m->len, key);
        same("get", was, is);
        if (old_castribba_len_count(m->bytes, m->len) != castribba_len_count(m->bytes, m->len)) {
            printf("len_count: the archives count different entries\n");
            exit(1);
        }
        /* a damaged image: one byte is another */
        if (m->len != 0) {
            image damaged = *m;
            damaged.bytes[below((uint32_t)m->len)] ^= (uint8_t)(1u << below(8));
            merge_damaged(&damaged, other);
        }
    }
    if (below(4000) == 0) maps[below(MAPS)].len = 0;
}

int main(int count, char **words)
{
    uint64_t steps = count > 1 ? strtoull(words[1], NULL, 10) : 1000000;
    size_t entries = 0, waiting = 0;
    state = count > 2 ? strtoull(words[2], NULL, 10) : 6;
    for (uint64_t i = 0; i < steps; i++) {
        step();
        for (int k = 0; k < MAPS; k++) {
            size_t n = castribba_len_count(maps[k].bytes, maps[k].len), w = 0;
            for (size_t p = 0; p < maps[k].len; p += CASTRIBBA_RECORD)
                if (maps[k].bytes[p] == CASTRIBBA_WAITING_DOT && maps[k].bytes[p + 1] + 1u > w) w = maps[k].bytes[p + 1] + 1u;
            if (n > entries) entries = n;
            if (w > waiting) waiting = w;
        }
    }
    printf("%llu answers the same, %llu of them refusals; %llu over an old limit; %llu images given an origin; maps of up to %zu entries and %zu waiting removals\n",
           (unsigned long long)(asked - wider), (unsigned long long)refused, (unsigned long long)wider, (unsigned long long)given_origin, entries, waiting);
    return 0;
}
