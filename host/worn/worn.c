/* worn.c: a drive with a worn page, acted out through the calls of salvage.h and printed for a reader: what was
 * there, what came back, and what to do with it. A key is a bay, a value the number of the image that it boots. */
#include <castribba.h>
#include <loader.h>
#include <salvage.h>

#include <inttypes.h>
#include <stdio.h>
#include <stdlib.h>
#include <string.h>

#include "format.h" /* the C code of docs/FORMAT.md */

enum { CONTROLLER = 1, DRIVE = 2, DRIVE_ANEW = 3 };                  /* actors */
enum { BAY_5 = 5, BAY_6 = 6, BAY_7 = 7, BAY_9 = 9, ERASED = 0xFF };
enum { IDA = 701, OTTO = 702 };                                      /* origins */

typedef struct image {
    uint8_t bytes[CASTRIBBA_LONGEST_MAP];
    size_t len;
} image;

static image controller, drive;

static const char *step = "start";

static void begin(const char *title)
{
    step = title;
    printf("\n%s\n", title);
}

static void check(int holds, const char *what)
{
    if (!holds) {
        fprintf(stderr, "worn: FAILED in step '%s': %s\n", step, what);
        exit(1);
    }
}

static int same(const image *one, const image *other)
{
    return one->len == other->len && memcmp(one->bytes, other->bytes, one->len) == 0;
}

static image fresh; /* an output must not overlap an input */

static void replace(image *map, uint64_t word)
{
    check(CASTRIBBA_NUMBER(word) == 0, "a call was refused");
    fresh.len = CASTRIBBA_LENGTH(word);
    *map = fresh;
}

static void apply(image *map, const image *op)
{
    replace(map, castribba_apply(map->bytes, map->len, op->bytes, op->len, fresh.bytes, sizeof fresh.bytes));
}

/* A party sets a bay; the operation goes to the other one too, unless that is null. */
static void pick(image *map, uint16_t actor, uint16_t origin, uint32_t bay, uint64_t value, image *other)
{
    static image op;
    uint64_t word = castribba_update(map->bytes, map->len, actor, bay, value, origin, op.bytes, sizeof op.bytes);
    check(CASTRIBBA_NUMBER(word) == 0, "no update was made");
    op.len = CASTRIBBA_LENGTH(word);
    apply(map, &op);
    if (other != NULL)
        apply(other, &op);
}

/* What there is, and what boots. */

static void print_clock(const image *map, uint8_t kind, uint8_t index)
{
    const char *between = "";
    printf("{");
    for (size_t place = 0; place < map->len; place += CASTRIBBA_RECORD) {
        record r = record_at(map->bytes, place);
        if (r.kind == kind && r.index == index) {
            printf("%s%d:%" PRIu64, between, r.actor, r.number);
            between = " ";
        }
    }
    printf("}");
}

static void show(const char *name, const image *map)
{
    uint32_t bay = 0;
    printf("  %-10s seen ", name);
    print_clock(map, CASTRIBBA_CLOCK_DOT, 0);
    for (size_t place = 0; place < map->len; place += CASTRIBBA_RECORD) {
        record r = record_at(map->bytes, place);
        if (r.kind == CASTRIBBA_VALUE) {
            if (r.key == bay)
                printf(" and %" PRIu64, r.number);
            else
                printf("; bay %" PRIu32 " has %" PRIu64, r.key, r.number);
            bay = r.key;
        }
        if (r.kind == CASTRIBBA_WAITING_KEY) {
            printf("; removal of bay %" PRIu32 " waits for ", r.key);
            print_clock(map, CASTRIBBA_WAITING_DOT, r.index);
        }
    }
    printf("\n");
}

static int boots(const image *map, uint32_t bay, uint64_t value)
{
    uint8_t choice[CASTRIBBA_REPORT];
    check(castribba_bay(map->bytes, map->len, bay, choice, sizeof choice) == sizeof choice, "no report");
    return choice[2] == 1 && little_endian(choice + 3, 8) == value;
}

/* Salvage, with the report in words. */

static const char *told(uint8_t by)
{
    switch (by) {
    case 1: return "a part of a record";
    case 2: return "bad by itself";
    case 3: return "not above the last one kept";
    case 4: return "without what it needs";
    default: return "another index, or united";
    }
}

static size_t salvage(const image *worn, image *back)
{
    static uint8_t report[CASTRIBBA_LONGEST_REPORT];
    printf("  as it is: number %" PRIu32 "\n", CASTRIBBA_NUMBER(castribba_len(worn->bytes, worn->len)));
    uint64_t word = castribba_salvage(worn->bytes, worn->len, back->bytes, sizeof back->bytes);
    check(CASTRIBBA_NUMBER(word) == 0, "nothing was salvaged");
    back->len = CASTRIBBA_LENGTH(word);
    check(castribba_len(back->bytes, back->len) == 0, "what came back is not accepted");
    word = castribba_salvage_report(worn->bytes, worn->len, report, sizeof report);
    check(CASTRIBBA_NUMBER(word) == 0, "there is no report");
    for (size_t place = 0; place < CASTRIBBA_LENGTH(word); place += CASTRIBBA_TOLD)
        printf("  record %2" PRIu64 ": %s\n", little_endian(report + place, 4), told(report[place + 4]));
    show("came back", back);
    return CASTRIBBA_LENGTH(word) / CASTRIBBA_TOLD;
}

static void set_up(void)
{
    static image withdrawn;
    begin("1. The drive's map, before: bays 5 and 6, bay 7 with two images, and a removal that waits.");
    pick(&controller, CONTROLLER, IDA, BAY_5, 40, &drive);
    pick(&controller, CONTROLLER, OTTO, BAY_6, 60, &drive);
    /* apart, both pick for bay 7; the drive hears of it, and the controller of the drive's later */
    static image apart;
    apart = drive;
    pick(&apart, DRIVE, 0, BAY_7, 71, NULL);
    pick(&controller, CONTROLLER, IDA, BAY_7, 70, &drive);
    replace(&drive, castribba_merge(drive.bytes, drive.len, apart.bytes, apart.len, fresh.bytes, sizeof fresh.bytes));
    /* the controller sets bay 9 and withdraws it: at the drive only the removal has come */
    pick(&controller, CONTROLLER, IDA, BAY_9, 90, NULL);
    uint64_t word = castribba_rm_get(controller.bytes, controller.len, BAY_9, withdrawn.bytes, sizeof withdrawn.bytes);
    check(CASTRIBBA_NUMBER(word) == 0, "no removal was made");
    withdrawn.len = CASTRIBBA_LENGTH(word);
    apply(&controller, &withdrawn);
    apply(&drive, &withdrawn);
    show("controller", &controller);
    show("drive", &drive);
    printf("  %zu records\n", drive.len / CASTRIBBA_RECORD);
}

static void good(void)
{
    static image back;
    begin("2. A good image comes back as it is, and there is nothing to tell.");
    check(salvage(&drive, &back) == 0 && same(&back, &drive), "a good image was changed");
}

static void erased_page(image *back)
{
    static image worn;
    begin("3. Bytes 32 to 63 are worn and read as erased: bays 5 and 6 are lost, bay 7 comes back whole.");
    worn = drive;
    memset(worn.bytes + 32, ERASED, 32);
    check(salvage(&worn, back) == 6, "another number of records");
    check(!boots(back, BAY_5, 40) && !boots(back, BAY_6, 60) && boots(back, BAY_7, 70), "other bays");
}

static void flipped_bit(void)
{
    static image worn, back;
    begin("4. One bit of bay 5's dot: it says update 9, which the map never saw. Bay 5 alone is lost.");
    worn = drive;
    worn.bytes[2 * CASTRIBBA_RECORD + 8] ^= 8;
    check(salvage(&worn, &back) == 3, "another number of records");
    check(!boots(&back, BAY_5, 40) && boots(&back, BAY_6, 60) && boots(&back, BAY_7, 70), "other bays");
}

static void run_together(void)
{
    static image worn, back;
    begin("5. Two maps run together, the drive's and, behind it, the beginning of the controller's.");
    worn = drive;
    memcpy(worn.bytes + worn.len, controller.bytes, 40);
    worn.len += 40;
    check(salvage(&worn, &back) == 3 && same(&back, &drive), "the first of them was to come back whole");
}

static void first_of_two(void)
{
    static image worn, back;
    begin("6. The first of bay 7's values is lost: the second takes its index, with its dots.");
    size_t lost = 0;
    while (record_at(drive.bytes, lost).kind != CASTRIBBA_VALUE || record_at(drive.bytes, lost).key != BAY_7)
        lost += CASTRIBBA_RECORD;
    worn = drive;
    memmove(worn.bytes + lost, worn.bytes + lost + CASTRIBBA_RECORD, worn.len - lost - CASTRIBBA_RECORD);
    worn.len -= CASTRIBBA_RECORD;
    salvage(&worn, &back);
    check(boots(&back, BAY_7, 71) && boots(&back, BAY_5, 40) && boots(&back, BAY_6, 60), "other bays");
}

static void first_record(void)
{
    static image worn, back;
    begin("7. The worst of bits: the first record's kind becomes 5, and hides what stands behind it.");
    worn = drive;
    worn.bytes[0] ^= 4;
    salvage(&worn, &back);
}

static void what_to_do(const image *back)
{
    static image merged;
    begin("8. What came back in step 3, merged into the controller's map: bays 5 and 6 go there too.");
    merged = controller;
    replace(&merged, castribba_merge(merged.bytes, merged.len, back->bytes, back->len, fresh.bytes, sizeof fresh.bytes));
    show("merged", &merged);
    check(boots(&controller, BAY_5, 40) && !boots(&merged, BAY_5, 40), "the loss was to count as a removal");
    check(boots(&controller, BAY_6, 60) && !boots(&merged, BAY_6, 60), "the loss was to count as a removal");

    begin("9. So the drive takes the controller's map, and a new actor number, since that map has not seen all of\n"
          "   its updates; 71 for bay 7, of which only the drive knew, is set anew.");
    drive = controller;
    pick(&drive, DRIVE_ANEW, 0, BAY_7, 71, &controller);
    show("drive", &drive);
    check(same(&drive, &controller), "the parties differ");
    check(boots(&drive, BAY_5, 40) && boots(&drive, BAY_6, 60) && boots(&drive, BAY_7, 71), "other bays");
}

int main(void)
{
    static image back;
    static char line[BUFSIZ]; /* otherwise stdio would ask the heap for one */
    setvbuf(stdout, line, _IOFBF, sizeof line);
    printf("A worn page. {1:2 2:1} reads: two operations of actor 1, the controller, and one of actor 2, the drive.\n"
           "A record has 16 bytes; a report names records by their place, from 0.\n");
    set_up();
    good();
    erased_page(&back);
    flipped_bit();
    run_together();
    first_of_two();
    first_record();
    what_to_do(&back);
    printf("\nEvery image that came back is accepted, and every answer was as expected.\n");
    return 0;
}
