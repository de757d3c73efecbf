/* day.c: a setting's day, acted out through the calls of castribba.h and printed for a reader.
 *
 * Three parties keep a map each: the management controller and two drive controllers. A key is a
 * bay, a value the number of the image that the bay boots. Every party keeps castribba.h's rules; step 21
 * shows what breaking one does. No heap: every buffer is static.
 */
#include <castribba.h>

#include <inttypes.h>
#include <stdio.h>
#include <stdlib.h>
#include <string.h>

#include "format.h" /* the C code of docs/FORMAT.md */

enum { CONTROLLER = 1, DRIVE_A = 2, DRIVE_B = 3 }; /* actors */
enum { BAY_5 = 5, BAY_6 = 6 };                     /* keys */
enum { ITSELF = 0, IDA = 701, OTTO = 702 };        /* origins: a drive by itself, or who sits at the console */
enum { MAILBOX = 64 };                             /* bytes that it moves at once */

typedef struct map {
    uint8_t bytes[CASTRIBBA_LONGEST_MAP];
    size_t len;
} map;

typedef struct operation {
    uint8_t bytes[CASTRIBBA_LONGEST_OPERATION];
    size_t len;
} operation;

static map controller, drive_a, drive_b;

/* Telling the story, and stopping it where it goes wrong. */

static const char *step = "start";

static void begin(const char *title)
{
    step = title;
    printf("\n%s\n", title);
}

static void check(int holds, const char *what)
{
    if (!holds) {
        fprintf(stderr, "day: FAILED in step '%s': %s\n", step, what);
        exit(1);
    }
}

/* Reading an image's records. */

/* How many images stand side by side for a bay; the record of the last of them goes to `last`. */
static int images_for(const map *m, uint32_t bay, record *last)
{
    int count = 0;
    for (size_t place = 0; place < m->len; place += CASTRIBBA_RECORD) {
        record r = record_at(m->bytes, place);
        if (r.kind == CASTRIBBA_VALUE && r.key == bay) {
            *last = r;
            count++;
        }
    }
    return count;
}

/* Who set a value, behind it; a value's record has its origin in the actor's place. */
static const char *who(const record *value)
{
    switch (value->actor) {
    case IDA: return " (Ida)";
    case OTTO: return " (Otto)";
    default: return "";
    }
}

/* The clock's records come first in a map, and are by themselves an image of that clock. */
static size_t clock_len(const map *m)
{
    size_t place = 0;
    while (place < m->len && record_at(m->bytes, place).kind == CASTRIBBA_CLOCK_DOT)
        place += CASTRIBBA_RECORD;
    return place;
}

static void print_clock(const map *m, uint8_t kind, uint8_t index)
{
    const char *between = "";
    printf("{");
    for (size_t place = 0; place < m->len; place += CASTRIBBA_RECORD) {
        record r = record_at(m->bytes, place);
        if (r.kind == kind && r.index == index) {
            printf("%s%d:%" PRIu64, between, r.actor, r.number);
            between = " ";
        }
    }
    printf("}");
}

/* One line: what the party has seen, what each bay boots and who set it, and which removals wait. */
static void show(const char *name, const map *m)
{
    record before = {0};
    printf("  %-10s seen ", name);
    print_clock(m, CASTRIBBA_CLOCK_DOT, 0);
    for (size_t place = 0; place < m->len; place += CASTRIBBA_RECORD) {
        record r = record_at(m->bytes, place);
        if (r.kind == CASTRIBBA_VALUE && before.kind == CASTRIBBA_VALUE && before.key == r.key)
            printf(" and %" PRIu64 "%s", r.number, who(&r));
        else if (r.kind == CASTRIBBA_VALUE)
            printf("; bay %" PRIu32 " boots %" PRIu64 "%s", r.key, r.number, who(&r));
        if (r.kind == CASTRIBBA_WAITING_KEY) {
            printf("; removal of bay %" PRIu32 " waits for ", r.key);
            print_clock(m, CASTRIBBA_WAITING_DOT, r.index);
        }
        before = r;
    }
    printf("\n");
}

static void show_all(void)
{
    show("controller", &controller);
    show("drive A", &drive_a);
    show("drive B", &drive_b);
}

static int same(const map *one, const map *other)
{
    return one->len == other->len && memcmp(one->bytes, other->bytes, one->len) == 0;
}

/* What drives that were given the same operations have in common; their bytes may differ. */
static int agree(const map *one, const map *other)
{
    return same_settings(one->bytes, one->len, other->bytes, other->len);
}

/* The calls, each checked. */

/* Which call made a new map does not matter for how it replaces the old one. */
static void replace(map *m, uint64_t word, const map *fresh)
{
    check(CASTRIBBA_NUMBER(word) == 0, "the map was to change, and the call refused");
    m->len = CASTRIBBA_LENGTH(word);
    memcpy(m->bytes, fresh->bytes, m->len);
}

static map fresh; /* an output must not overlap an input */

/* Rule 1: what the guard says of an operation that came. */
static uint32_t ready(const map *m, const operation *op)
{
    uint64_t word = castribba_ready(m->bytes, m->len, op->bytes, op->len);
    check(CASTRIBBA_LENGTH(word) == 0, "the guard's answer has no length");
    return CASTRIBBA_NUMBER(word);
}

/* Answers how many dots the operation took from the entries. */
static uint64_t apply(map *to, const operation *op)
{
    uint64_t taken = castribba_apply_deleted(to->bytes, to->len, op->bytes, op->len,
                                             sizeof fresh.bytes);
    replace(to, castribba_apply(to->bytes, to->len, op->bytes, op->len, fresh.bytes,
                                sizeof fresh.bytes), &fresh);
    return taken;
}

/* The operation is one that may be applied. */
static uint64_t deliver(map *to, const operation *op)
{
    check(ready(to, op) == CASTRIBBA_DONE, "the operation was to be the next");
    return apply(to, op);
}

/* What was seen may be dropped; applied, it changes nothing. */
static void deliver_again(map *to, const operation *op)
{
    static map before;
    int removal = record_at(op->bytes, 0).kind == CASTRIBBA_REMOVAL;
    before = *to;
    check(ready(to, op) == (removal ? CASTRIBBA_DONE : CASTRIBBA_SEEN), "the update was to be seen");
    check(apply(to, op) == 0, "an operation delivered twice took something");
    check(same(to, &before), "an operation delivered twice changed the map");
}

enum { MAIL = 3 };

/* Operations in an order of the mailbox's: what is not the next is held, and asked about again when more
 * has come. Answers how often one was held. */
static int deliver_in_order(map *to, const operation *const mail[MAIL], const int order[MAIL])
{
    int held[MAIL] = {0}, times_held = 0;
    for (int place = 0; place < MAIL; place++) {
        held[order[place]] = 1;
        for (int one = 0; one < MAIL; one++)
            if (held[one] && ready(to, mail[one]) == CASTRIBBA_DONE) {
                held[one] = 0;
                deliver(to, mail[one]);
                deliver_again(to, mail[one]);
                one = -1; /* what was held before it may be the next */
            }
        times_held += held[order[place]];
    }
    for (int one = 0; one < MAIL; one++)
        check(!held[one], "an operation was held to the end");
    return times_held;
}

static void show_taken(const char *party, uint64_t taken, uint64_t expected)
{
    check(taken == expected, "another number of dots was taken");
    printf("  %-10s %" PRIu64 " dots were taken from the entries\n", party, taken);
}

/* Rule 4: a merge, and which of the maps is kept. Here it is the merged one. */
static void merge(map *into, const map *other)
{
    static map merged;
    replace(&merged, castribba_merge(into->bytes, into->len, other->bytes, other->len, fresh.bytes,
                                     sizeof fresh.bytes), &fresh);
    check(kept_of(merged.bytes, merged.len, other->bytes, other->len, into->bytes, into->len) == KEEP_MERGED,
          "another map was to be kept");
    *into = merged;
}

/* A map through the mailbox: the receiver has no room for an image on its way, and reads it piece by
 * piece. */
static void send_map(const char *sender, const map *from, map *to)
{
    static castribba_pieces reader;
    int pieces = 0;
    castribba_pieces_begin(&reader);
    for (size_t place = 0; place < from->len; place += MAILBOX, pieces++) {
        size_t len = from->len - place < MAILBOX ? from->len - place : MAILBOX;
        check(castribba_pieces_take(&reader, from->bytes + place, len) == 0, "a piece was not taken");
    }
    replace(to, castribba_pieces_end(&reader, fresh.bytes, sizeof fresh.bytes), &fresh);
    check(same(from, to), "another map arrived than was sent");
    check(castribba_pieces_take(&reader, from->bytes, MAILBOX) == (uint64_t)CASTRIBBA_ENDED << 32,
          "a piece was taken after the end");
    printf("  %-10s sends %zu bytes, in %d pieces of at most %d\n", sender, to->len, pieces, MAILBOX);
}

static uint64_t reset(map *m, const uint8_t *clock, size_t clock_length)
{
    uint64_t taken = castribba_reset_remove_deleted(m->bytes, m->len, clock, clock_length,
                                                    sizeof fresh.bytes);
    replace(m, castribba_reset_remove(m->bytes, m->len, clock, clock_length, fresh.bytes,
                                      sizeof fresh.bytes), &fresh);
    return taken;
}

/* A party picks an image for a bay: makes the operation, and is the first to apply it. */
static void pick(map *m, uint16_t actor, uint16_t origin, uint32_t bay, uint64_t image, operation *op)
{
    uint64_t word = castribba_update(m->bytes, m->len, actor, bay, image, origin, op->bytes,
                                     sizeof op->bytes);
    check(CASTRIBBA_NUMBER(word) == 0, "an update was not made");
    op->len = CASTRIBBA_LENGTH(word);
    deliver(m, op);
}

/* Rule 2: under all that the party has seen. */
static uint64_t withdraw(map *m, uint32_t bay, operation *op)
{
    uint64_t word = castribba_rm_read_ctx(m->bytes, m->len, bay, op->bytes, sizeof op->bytes);
    check(CASTRIBBA_NUMBER(word) == 0, "a removal was not made");
    op->len = CASTRIBBA_LENGTH(word);
    return deliver(m, op);
}

/* Rule 2 broken: under the entry's dots alone. */
static uint64_t withdraw_by_entry(map *m, uint32_t bay, operation *op)
{
    uint64_t word = castribba_rm_get(m->bytes, m->len, bay, op->bytes, sizeof op->bytes);
    check(CASTRIBBA_NUMBER(word) == 0, "a removal was not made");
    op->len = CASTRIBBA_LENGTH(word);
    return deliver(m, op);
}

static uint64_t count(const map *m)
{
    check(castribba_len(m->bytes, m->len) == 0, "the entries were not counted");
    return castribba_len_count(m->bytes, m->len);
}

static void check_boots(const map *m, uint32_t bay, uint64_t image, uint16_t origin)
{
    record found;
    check(images_for(m, bay, &found) == 1 && found.number == image, "the bay boots another image");
    check(found.actor == origin, "the bay was set by another");
}

static void check_side_by_side(const map *m, uint32_t bay)
{
    record found;
    check(images_for(m, bay, &found) == 2, "two images were to stand side by side");
}

static void check_withdrawn(const map *m, uint32_t bay)
{
    record found;
    check(images_for(m, bay, &found) == 0, "the bay's setting was to be gone");
}

/* The day. */

static void console_picks(void)
{
    static operation first;
    begin("1. At the console Ida picks image 40 for bay 5; the mailbox delivers to both drives.");
    pick(&controller, CONTROLLER, IDA, BAY_5, 40, &first);
    deliver(&drive_a, &first);
    deliver(&drive_b, &first);
    check(same(&drive_a, &controller) && same(&drive_b, &controller), "the parties differ");
    show_all();

    begin("2. The mailbox delivers the same operation a second time: nothing changes.");
    deliver_again(&controller, &first);
    deliver_again(&drive_a, &first);
    deliver_again(&drive_b, &first);
    show_all();
}

static void edits_while_apart(void)
{
    static operation by_controller, by_a, by_b, settled;
    begin("3. Apart, Otto picks 41 at the console and drive A 42 for bay 5, and drive B 60 for bay 6.");
    pick(&controller, CONTROLLER, OTTO, BAY_5, 41, &by_controller);
    pick(&drive_a, DRIVE_A, ITSELF, BAY_5, 42, &by_a);
    pick(&drive_b, DRIVE_B, ITSELF, BAY_6, 60, &by_b);
    show_all();

    begin("4. The mailbox delivers late, and twice: 41 and 42 stand side by side.");
    deliver(&controller, &by_a);
    deliver(&controller, &by_b);
    deliver(&drive_a, &by_b);
    deliver(&drive_a, &by_controller);
    deliver(&drive_b, &by_a);
    deliver(&drive_b, &by_controller);
    deliver_again(&controller, &by_a);
    deliver_again(&drive_a, &by_controller);
    deliver_again(&drive_b, &by_a);
    check_side_by_side(&controller, BAY_5);
    check_side_by_side(&drive_a, BAY_5);
    check_side_by_side(&drive_b, BAY_5);
    show_all();

    begin("5. Ida sees both at the console and picks 43, which overwrites both, everywhere.");
    pick(&controller, CONTROLLER, IDA, BAY_5, 43, &settled);
    deliver(&drive_a, &settled);
    deliver(&drive_b, &settled);
    check_boots(&controller, BAY_5, 43, IDA);
    check(same(&drive_a, &controller) && same(&drive_b, &controller), "the parties differ");
    show_all();
}

static void removal_comes_first(void)
{
    static operation update, removal, other;
    static map before, replica;
    before = drive_b;

    begin("6. Drive A picks 44 for bay 5, the controller hears of it and withdraws the setting.");
    pick(&drive_a, DRIVE_A, ITSELF, BAY_5, 44, &update);
    deliver(&controller, &update);
    show_taken("controller", withdraw(&controller, BAY_5, &removal), 2);
    check_withdrawn(&controller, BAY_5);
    show_all();

    begin("7. At drive B the removal arrives before the update that it removes: it waits.");
    show_taken("drive B", deliver(&drive_b, &removal), 2);
    check_withdrawn(&drive_b, BAY_5);
    check(!same(&drive_b, &controller), "the removal was to wait");
    show("drive B", &drive_b);

    begin("8. The update arrives, late: the waiting removal meets it, and bay 5 stays withdrawn.");
    show_taken("drive B", deliver(&drive_b, &update), 0);
    show_taken("drive A", deliver(&drive_a, &removal), 2);
    check(same(&drive_a, &controller) && same(&drive_b, &controller), "the parties differ");
    deliver_again(&drive_a, &update);
    deliver_again(&drive_b, &update);
    deliver_again(&drive_b, &removal);
    check_withdrawn(&drive_b, BAY_5);
    show_all();

    begin("9. The same with a later edit of bay 6 among them, in each of the six orders.");
    pick(&drive_b, DRIVE_B, ITSELF, BAY_6, 61, &other);
    deliver(&controller, &other);
    deliver(&drive_a, &other);
    const operation *const mail[MAIL] = {&update, &removal, &other};
    const int orders[6][MAIL] = {{0, 1, 2}, {0, 2, 1}, {1, 0, 2}, {1, 2, 0}, {2, 0, 1}, {2, 1, 0}};
    int held = 0;
    for (int order = 0; order < 6; order++) {
        replica = before;
        held += deliver_in_order(&replica, mail, orders[order]);
        check(agree(&replica, &controller), "an order of delivery made a difference");
    }
    check(held == 3, "the edit was to be held where it came before the update that its writer had seen");
    show("each order", &replica);
    printf("  in %d of them the edit was held, since its writer had seen the update\n", held);
}

static void plugged_back_in(void)
{
    static operation by_controller, by_b;
    static map one_way, other_way, from_b, from_controller;
    begin("10. Drive B is out. Otto picks 45 for bay 5 at the console, drive B 62 for bay 6.");
    pick(&controller, CONTROLLER, OTTO, BAY_5, 45, &by_controller);
    deliver(&drive_a, &by_controller);
    pick(&drive_b, DRIVE_B, ITSELF, BAY_6, 62, &by_b);
    show_all();

    begin("11. Drive B is plugged back in: its map and the controller's cross by mailbox, in pieces.");
    send_map("drive B", &drive_b, &from_b);
    send_map("controller", &controller, &from_controller);

    begin("12. The whole maps are merged, both ways with one result, and by rule 4 it is kept.");
    check(castribba_validate_merge(controller.bytes, controller.len, from_b.bytes, from_b.len) == 0,
          "the merge was to be valid");
    one_way = controller;
    merge(&one_way, &from_b);
    other_way = drive_b;
    merge(&other_way, &from_controller);
    check(same(&one_way, &other_way), "the two ways differ");
    controller = drive_b = one_way;
    deliver(&drive_a, &by_b);
    const map *const parties[2] = {&controller, &drive_a};
    for (int party = 0; party < 2; party++) {
        check_boots(parties[party], BAY_5, 45, OTTO);
        check_boots(parties[party], BAY_6, 62, ITSELF);
    }
    show_all();
}

static void loader_reads(void)
{
    static map bay;
    begin("13. The boot loader reads: bay 5 alone, and how many bays are set.");
    uint64_t word = castribba_get(drive_a.bytes, drive_a.len, BAY_5, bay.bytes, sizeof bay.bytes);
    check(CASTRIBBA_NUMBER(word) == 0, "the loader was refused");
    bay.len = CASTRIBBA_LENGTH(word);
    check_boots(&bay, BAY_5, 45, OTTO);
    check(count(&bay) == 1 && count(&drive_a) == 2, "the count of entries is another");
    show("loader", &bay);
    printf("  %" PRIu64 " bays are set\n", count(&drive_a));
}

/* What validate_op says of an operation that came; the day meets it where it answers 11. */
static void show_gap(const map *m, const operation *op)
{
    uint64_t word = castribba_validate_op(m->bytes, m->len, op->bytes, op->len);
    check(word == (uint64_t)CASTRIBBA_GAP << 32, "validate_op was to answer 11");
    printf("  validate_op: number %" PRIu32 ", range %" PRIu64 " to %" PRIu64 "\n",
           CASTRIBBA_NUMBER(word), castribba_validate_op_start(m->bytes, m->len, op->bytes, op->len),
           castribba_validate_op_end(m->bytes, m->len, op->bytes, op->len));
}

/* An operation that came, and what the guard says. */
static void show_ready(const char *party, const map *m, const operation *op, uint32_t expected)
{
    record head = record_at(op->bytes, 0);
    check(ready(m, op) == expected, "the guard was to say something else");
    printf("  %-10s update %" PRIu64 " of actor %d came: ", party, head.number, head.actor);
    if (expected == CASTRIBBA_HOLD)
        printf("held, number %" PRIu32 ", until update %" PRIu64 " of actor %" PRIu64 " is there\n", expected,
               castribba_ready_counter(m->bytes, m->len, op->bytes, op->len),
               castribba_ready_actor(m->bytes, m->len, op->bytes, op->len));
    else
        printf("it is the next\n");
}

static void gap_is_caught(void)
{
    static operation lost, arrived;
    begin("14. Ida picks 46 for bay 5, then Otto 64 for bay 6; the mailbox loses the first.");
    pick(&controller, CONTROLLER, IDA, BAY_5, 46, &lost);
    pick(&controller, CONTROLLER, OTTO, BAY_6, 64, &arrived);
    show_ready("drive A", &drive_a, &arrived, CASTRIBBA_HOLD);
    show_gap(&drive_a, &arrived);
    show("drive A", &drive_a);

    begin("15. It is sent again. validate_op asks bay 6 too, where the controller was never seen.");
    deliver(&drive_a, &lost);
    show_ready("drive A", &drive_a, &arrived, CASTRIBBA_DONE);
    show_gap(&drive_a, &arrived);
    deliver(&drive_a, &arrived);
    deliver(&drive_b, &lost);
    deliver(&drive_b, &arrived);
    check(agree(&drive_a, &controller) && agree(&drive_b, &controller), "the parties differ");
    show_all();
}

static void handed_on(void)
{
    static operation newer;
    static map seen;
    begin("16. The sled is handed on: what the console had seen is reset on all three, what is newer stays.");
    seen = controller;
    pick(&drive_b, DRIVE_B, ITSELF, BAY_6, 63, &newer);
    deliver(&controller, &newer);
    deliver(&drive_a, &newer); /* rule 5: nothing is on its way */
    show_taken("controller", reset(&controller, seen.bytes, clock_len(&seen)), 2);
    show_taken("drive A", reset(&drive_a, seen.bytes, clock_len(&seen)), 2);
    show_taken("drive B", reset(&drive_b, seen.bytes, clock_len(&seen)), 2);
    check(agree(&drive_a, &controller) && agree(&drive_b, &controller), "the parties differ");
    check(count(&drive_b) == 1, "one bay was to stay set");
    check_boots(&drive_b, BAY_6, 63, ITSELF);
    show_all();
}

static void refusal(void)
{
    enum { PAINT = 0xEE };
    begin("17. The loader offers a buffer that is one byte too short: it is refused, unwritten.");
    memset(fresh.bytes, PAINT, sizeof fresh.bytes);
    uint64_t word = castribba_get(drive_b.bytes, drive_b.len, BAY_6, fresh.bytes, drive_b.len - 1);
    check(word == (uint64_t)CASTRIBBA_SHORT_BUFFER << 32, "the short buffer was not refused");
    for (size_t place = 0; place < sizeof fresh.bytes; place++)
        check(fresh.bytes[place] == PAINT, "a refused call wrote");
    printf("  number %" PRIu32 ", length %" PRIu32 ", no byte written\n", CASTRIBBA_NUMBER(word),
           CASTRIBBA_LENGTH(word));
}

static void show_removal(const char *call, const operation *op)
{
    const char *between = "";
    printf("  %-21s removes bay %d under {", call, BAY_5);
    for (size_t place = 0; place < op->len; place += CASTRIBBA_RECORD) {
        record r = record_at(op->bytes, place);
        if (r.kind == CASTRIBBA_REMOVAL_DOT) {
            printf("%s%d:%" PRIu64, between, r.actor, r.number);
            between = " ";
        }
    }
    printf("}\n");
}

static void withdrawn_stays_away(void)
{
    static operation on_6, bad, removal, by_entry, meanwhile;
    static map without_rule_a, without_rule_b;
    begin("18. Drive B picks 65 for bay 6; drive A hears of it and picks 50 for bay 5. The console is cut off.");
    pick(&drive_b, DRIVE_B, ITSELF, BAY_6, 65, &on_6);
    deliver(&drive_a, &on_6);
    pick(&drive_a, DRIVE_A, ITSELF, BAY_5, 50, &bad);
    deliver(&drive_b, &bad);
    show_all();

    begin("19. Image 50 is bad: at drive B it is withdrawn. Meanwhile Otto picks 51 at the console.");
    without_rule_a = drive_a;
    without_rule_b = drive_b;
    withdraw(&drive_b, BAY_5, &removal);
    withdraw_by_entry(&without_rule_b, BAY_5, &by_entry);
    show_removal("castribba_rm_read_ctx", &removal);
    pick(&controller, CONTROLLER, OTTO, BAY_5, 51, &meanwhile);
    show_all();

    begin("20. All hear of all: 51 comes to drive A before the removal, the console gets 50 first and holds it.");
    deliver(&drive_a, &meanwhile);
    check_side_by_side(&drive_a, BAY_5);
    deliver(&drive_a, &removal);
    deliver(&drive_b, &meanwhile);
    show_ready("controller", &controller, &bad, CASTRIBBA_HOLD);
    deliver(&controller, &removal);
    show("controller", &controller);
    deliver(&controller, &on_6);
    show_ready("controller", &controller, &bad, CASTRIBBA_DONE);
    deliver(&controller, &bad);
    check_boots(&drive_a, BAY_5, 51, OTTO);
    check_boots(&drive_b, BAY_5, 51, OTTO);
    check_boots(&controller, BAY_5, 51, OTTO);
    check(agree(&drive_a, &drive_b) && agree(&drive_a, &controller), "the parties differ");
    check(!same(&drive_a, &drive_b), "the bytes were to differ");
    show_all();
    printf("  All agree. Their images have %zu, %zu and %zu bytes: bytes don't tell.\n", controller.len,
           drive_a.len, drive_b.len);

    begin("21. What rm_get's removal would have done to the drives, in the same order: 50 is back at drive A.");
    show_removal("castribba_rm_get", &by_entry);
    deliver(&without_rule_a, &meanwhile);
    deliver(&without_rule_a, &by_entry);
    deliver(&without_rule_b, &meanwhile);
    check_side_by_side(&without_rule_a, BAY_5);
    check_boots(&without_rule_b, BAY_5, 51, OTTO);
    check(!agree(&without_rule_a, &without_rule_b), "the drives were to differ");
    show("drive A", &without_rule_a);
    show("drive B", &without_rule_b);
    printf("  Every call answered 0. Neither overwrote the other, so that drive A's loader takes the smaller: 50.\n");
}

int main(void)
{
    static char line[BUFSIZ]; /* otherwise stdio would ask the heap for one */
    setvbuf(stdout, line, _IOFBF, sizeof line);
    printf("A setting's day. {1:2 3:1} reads: two operations of actor 1 and one of actor 3.\n"
           "Actors: controller %d, drive A %d, drive B %d. Origins: Ida %d and Otto %d at the console;\n"
           "what a drive sets by itself has origin %d.\n",
           CONTROLLER, DRIVE_A, DRIVE_B, IDA, OTTO, ITSELF);
    console_picks();
    edits_while_apart();
    removal_comes_first();
    plugged_back_in();
    loader_reads();
    gap_is_caught();
    handed_on();
    refusal();
    withdrawn_stays_away();
    printf("\nThe day is over, and every answer was as expected.\n");
    return 0;
}
