/* mended.c: the calls of salvage.h on small images, step by step, and on images around every limit: the word,
 * the bytes written and the bytes left alone. */
#include <salvage.h>

#define CHECKS_NAME "mended"
#define CHECKS_OUT (CASTRIBBA_LONGEST_MAP + 5)
#include "../checks.h"

/* a record of a report */
#define TOLD(place, step) FOUR((uint32_t)(place)), (step)

/* Both calls: the image that comes back, and the report. */
static void mends(const char *what, const uint8_t *image, size_t len, const uint8_t *back,
                  size_t back_len, const uint8_t *told, size_t told_len)
{
    gives(what, castribba_salvage(image, len, OUT), back, back_len);
    gives(what, castribba_salvage_report(image, len, OUT), told, told_len);
    /* what came back is mended: it stays as it is, with nothing to tell */
    gives(what, castribba_salvage(back, back_len, OUT), back, back_len);
    gives(what, castribba_salvage_report(back, back_len, OUT), back, 0);
}

/* The same, of an image, what comes back and the report, each written out. */
#define MENDS(what, image, back, told)                                                 \
    do {                                                                               \
        static const uint8_t image_[] = {UNPACK image};                                \
        static const uint8_t back_[] = {UNPACK back};                                  \
        static const uint8_t told_[] = {UNPACK told};                                  \
        mends(what, image_, sizeof image_, back_, sizeof back_, told_, sizeof told_);  \
    } while (0)
#define UNPACK(...) __VA_ARGS__

/* clock {1:2}, entry 5 {1:2} holding 40 under {1:2}, set by 7 */
#define CLOCK ROW(1, 0, 1, 0, 2)
#define ENTRY ROW(2, 0, 1, 5, 2)
#define FORTY ROW(3, 0, 7, 5, 40)
#define ITS_DOT ROW(4, 0, 1, 5, 2)
#define MAP CLOCK, ENTRY, FORTY, ITS_DOT

static void steps_one_to_three(void)
{
    static const uint8_t map[] = {MAP};
    mends("an accepted image", IMAGE(map), IMAGE(map), NULL, 0);
    mends("no bytes", NULL, 0, NULL, 0, NULL, 0);
    MENDS("a part of a record at the end", (MAP, 5, 0, 1), (MAP), (TOLD(4, 1)));

    /* bad by itself */
    MENDS("kinds that no map has", (ROW(0, 0, 0, 0, 0), CLOCK, ROW(7, 0, 0, 0, 0)), (CLOCK),
          (TOLD(0, 2), TOLD(2, 2)));
    MENDS("a kind above all", (CLOCK, ROW(255, 255, 65535, 0xFFFFFFFF, UINT64_MAX)), (CLOCK),
          (TOLD(1, 2)));
    MENDS("unused fields",
          (ROW(1, 1, 1, 0, 2), ROW(1, 0, 1, 1, 2), CLOCK, ROW(2, 1, 1, 5, 2), ROW(5, 0, 1, 9, 3),
           ROW(6, 0, 1, 5, 0), ROW(6, 0, 0, 5, 1)),
          (CLOCK), (TOLD(0, 2), TOLD(1, 2), TOLD(3, 2), TOLD(4, 2), TOLD(5, 2), TOLD(6, 2)));
    MENDS("zero counters", (ROW(1, 0, 1, 0, 0), CLOCK, ROW(2, 0, 1, 5, 0), ROW(5, 0, 1, 0, 0)),
          (CLOCK), (TOLD(0, 2), TOLD(2, 2), TOLD(3, 2)));
    MENDS("a zero counter of a value's dot takes its value", (CLOCK, ENTRY, FORTY, ROW(4, 0, 1, 5, 0)),
          (CLOCK, ENTRY), (TOLD(2, 4), TOLD(3, 2)));
    MENDS("a value of zero is a value", (CLOCK, ENTRY, ROW(3, 0, 0, 5, 0), ITS_DOT),
          (CLOCK, ENTRY, ROW(3, 0, 0, 5, 0), ITS_DOT), ());

    /* not above the last one kept */
    MENDS("a doubled record", (CLOCK, CLOCK, ENTRY, FORTY, ITS_DOT), (MAP), (TOLD(1, 3)));
    MENDS("two records exchanged", (ENTRY, CLOCK, FORTY, ITS_DOT), (),
          (TOLD(0, 4), TOLD(1, 3), TOLD(2, 4), TOLD(3, 4)));
    MENDS("a second record for one value", (CLOCK, ENTRY, FORTY, ROW(3, 0, 8, 5, 41), ITS_DOT), (MAP),
          (TOLD(3, 3)));
    MENDS("a record that is too high hides those behind it",
          (CLOCK, ROW(6, 0, 0, 5, 0), ENTRY, FORTY, ITS_DOT), (CLOCK),
          (TOLD(1, 4), TOLD(2, 3), TOLD(3, 3), TOLD(4, 3)));
    MENDS("one that is bad by itself hides none", (ROW(6, 0, 0, 5, 9), MAP), (MAP), (TOLD(0, 2)));
    MENDS("an image behind itself", (MAP, MAP), (MAP),
          (TOLD(4, 3), TOLD(5, 3), TOLD(6, 3), TOLD(7, 3)));
}

static void needs(void)
{
    MENDS("an entry's dot above the map clock", (CLOCK, ROW(2, 0, 1, 5, 3), FORTY, ITS_DOT), (CLOCK),
          (TOLD(1, 4), TOLD(2, 4), TOLD(3, 4)));
    MENDS("an entry's dot of an actor that was not seen", (CLOCK, ENTRY, ROW(2, 0, 2, 5, 1), FORTY, ITS_DOT),
          (MAP), (TOLD(2, 4)));
    MENDS("no map clock", (ENTRY, FORTY, ITS_DOT), (), (TOLD(0, 4), TOLD(1, 4), TOLD(2, 4)));
    MENDS("a value without a dot", (CLOCK, ENTRY, FORTY), (CLOCK, ENTRY), (TOLD(2, 4)));
    MENDS("a dot without its value", (CLOCK, ENTRY, ITS_DOT), (CLOCK, ENTRY), (TOLD(2, 4)));
    MENDS("a value without an entry", (CLOCK, FORTY, ITS_DOT), (CLOCK), (TOLD(1, 4), TOLD(2, 4)));
    MENDS("a dot of another index", (CLOCK, ENTRY, FORTY, ROW(4, 1, 1, 5, 2)), (CLOCK, ENTRY),
          (TOLD(2, 4), TOLD(3, 4)));
    MENDS("a value's dot above the map clock stays", (CLOCK, ENTRY, FORTY, ROW(4, 0, 9, 5, 99)),
          (CLOCK, ENTRY, FORTY, ROW(4, 0, 9, 5, 99)), ());
    MENDS("a waiting key without its clock", (CLOCK, ROW(5, 0, 1, 0, 3), ROW(6, 0, 0, 5, 0), ROW(6, 1, 0, 5, 0)),
          (CLOCK, ROW(5, 0, 1, 0, 3), ROW(6, 0, 0, 5, 0)), (TOLD(3, 4)));
}

static void step_five(void)
{
    MENDS("a gap in the values", (CLOCK, ENTRY, ROW(3, 2, 7, 5, 40), ROW(4, 2, 1, 5, 2)), (MAP),
          (TOLD(2, 5), TOLD(3, 5)));
    MENDS("the highest index", (CLOCK, ENTRY, FORTY, ROW(3, 255, 0, 5, 41), ITS_DOT, ROW(4, 255, 1, 5, 1)),
          (CLOCK, ENTRY, FORTY, ROW(3, 1, 0, 5, 41), ITS_DOT, ROW(4, 1, 1, 5, 1)),
          (TOLD(3, 5), TOLD(5, 5)));
    MENDS("the first of two values lost", (CLOCK, ENTRY, FORTY, ROW(3, 1, 0, 5, 41), ROW(4, 1, 1, 5, 1)),
          (CLOCK, ENTRY, ROW(3, 0, 0, 5, 41), ROW(4, 0, 1, 5, 1)), (TOLD(2, 4), TOLD(3, 5), TOLD(4, 5)));
    MENDS("a gap among those that wait", (ROW(5, 3, 1, 0, 3), ROW(6, 3, 0, 5, 0)),
          (ROW(5, 0, 1, 0, 3), ROW(6, 0, 0, 5, 0)), (TOLD(0, 5), TOLD(1, 5)));
    /* index 1 keeps its clock's place; 0 and 2 trade theirs */
    MENDS("waiting clocks out of order",
          (ROW(5, 0, 1, 0, 9), ROW(5, 1, 1, 0, 5), ROW(5, 2, 1, 0, 3), ROW(6, 0, 0, 5, 0), ROW(6, 1, 0, 5, 0)),
          (ROW(5, 0, 1, 0, 3), ROW(5, 1, 1, 0, 5), ROW(5, 2, 1, 0, 9), ROW(6, 1, 0, 5, 0), ROW(6, 2, 0, 5, 0)),
          (TOLD(0, 5), TOLD(2, 5), TOLD(3, 5)));
    MENDS("a prefix comes first",
          (ROW(5, 0, 1, 0, 3), ROW(5, 0, 2, 0, 1), ROW(5, 1, 1, 0, 3)),
          (ROW(5, 0, 1, 0, 3), ROW(5, 1, 1, 0, 3), ROW(5, 1, 2, 0, 1)), (TOLD(0, 5), TOLD(1, 5), TOLD(2, 5)));
    MENDS("equal waiting clocks are united",
          (ROW(5, 0, 1, 0, 3), ROW(5, 1, 1, 0, 3), ROW(6, 1, 0, 4, 0), ROW(6, 0, 0, 5, 0), ROW(6, 1, 0, 5, 0)),
          (ROW(5, 0, 1, 0, 3), ROW(6, 0, 0, 4, 0), ROW(6, 0, 0, 5, 0)), (TOLD(1, 5), TOLD(2, 5), TOLD(4, 5)));
    /* the second and the third list 6: the second's stays */
    MENDS("three are united",
          (ROW(5, 0, 1, 0, 3), ROW(5, 1, 1, 0, 3), ROW(5, 2, 1, 0, 3), ROW(6, 1, 0, 6, 0), ROW(6, 2, 0, 6, 0)),
          (ROW(5, 0, 1, 0, 3), ROW(6, 0, 0, 6, 0)), (TOLD(1, 5), TOLD(2, 5), TOLD(3, 5), TOLD(4, 5)));
    /* united at 0, all others one lower */
    MENDS("an index changes behind a union",
          (ROW(5, 0, 1, 0, 3), ROW(5, 1, 1, 0, 3), ROW(5, 2, 1, 0, 4), ROW(6, 2, 0, 6, 0)),
          (ROW(5, 0, 1, 0, 3), ROW(5, 1, 1, 0, 4), ROW(6, 1, 0, 6, 0)), (TOLD(1, 5), TOLD(2, 5), TOLD(3, 5)));
    /* 1 and 2 are equal and stand behind 0: their index becomes 0, and 0's 1 */
    MENDS("united below another",
          (ROW(5, 0, 1, 0, 9), ROW(5, 1, 1, 0, 3), ROW(5, 2, 1, 0, 3), ROW(6, 2, 0, 6, 0)),
          (ROW(5, 0, 1, 0, 3), ROW(5, 1, 1, 0, 9), ROW(6, 0, 0, 6, 0)),
          (TOLD(0, 5), TOLD(1, 5), TOLD(2, 5), TOLD(3, 5)));
}

/* Images built a record at a time, with the report that they must have. */

static uint8_t image[CASTRIBBA_LONGEST_MAP + 64], back[CASTRIBBA_LONGEST_MAP + 64];
static uint8_t told[CASTRIBBA_LONGEST_REPORT];
static size_t image_len, back_len, told_len;

static void begin(void)
{
    image_len = back_len = told_len = 0;
}

static void write_record(uint8_t *to, uint8_t kind, unsigned index, unsigned actor, unsigned key,
                         uint64_t number)
{
    const uint8_t record[] = {ROW(kind, (uint8_t)index, actor, key, number)};
    memcpy(to, record, sizeof record);
}

/* A record of the input that comes back as it is (step 0), goes by a step, or comes back with index `to`. */
static void add(uint8_t kind, unsigned index, unsigned actor, unsigned key, uint64_t number, int step,
                int to)
{
    if (step != 0) {
        const uint8_t record[] = {TOLD(image_len / 16, (uint8_t)step)};
        memcpy(told + told_len, record, sizeof record);
        told_len += sizeof record;
    }
    if (to >= 0) {
        write_record(back + back_len, kind, (unsigned)to, actor, key, number);
        back_len += 16;
    }
    write_record(image + image_len, kind, index, actor, key, number);
    image_len += 16;
}

static void stays(uint8_t kind, unsigned index, unsigned actor, unsigned key, uint64_t number)
{
    add(kind, index, actor, key, number, 0, (int)index);
}

static void goes(uint8_t kind, unsigned index, unsigned actor, unsigned key, uint64_t number, int step)
{
    add(kind, index, actor, key, number, step, -1);
}

static void finish(const char *what)
{
    mends(what, image, image_len, back, back_len, told, told_len);
}

static void limits(void)
{
    enum { DOTS = CASTRIBBA_MOST_DOTS, ENTRIES = CASTRIBBA_MOST_ENTRIES, VALUES = CASTRIBBA_MOST_VALUES };
    enum { WAITING = CASTRIBBA_MOST_WAITING, KEYS = CASTRIBBA_MOST_KEYS };

    begin();
    for (unsigned actor = 0; actor < DOTS; actor++)
        stays(1, 0, actor, 0, 2);
    goes(1, 0, DOTS, 0, 2, 4);
    stays(2, 0, 0, 5, 1);
    goes(2, 0, DOTS, 5, 1, 4); /* its actor went */
    finish("a ninth dot of the map clock");

    /* the first dot of the entry is above the clock, and counts toward no limit */
    begin();
    for (unsigned actor = 0; actor < DOTS; actor++)
        stays(1, 0, actor, 0, 2);
    goes(2, 0, 0, 5, 3, 4);
    for (unsigned actor = 1; actor < DOTS; actor++)
        stays(2, 0, actor, 5, 2);
    stays(3, 0, 0, 5, 9);
    for (unsigned actor = 0; actor < DOTS; actor++)
        stays(4, 0, actor, 5, 9);
    goes(4, 0, DOTS, 5, 9, 4);
    finish("a ninth dot of a value");

    /* key 1 has no dot that stays: the 33rd key of the input is the 32nd that stays */
    begin();
    stays(1, 0, 1, 0, 2);
    goes(2, 0, 1, 1, 3, 4);
    for (unsigned key = 2; key < 2 + ENTRIES; key++)
        stays(2, 0, 1, key, 1);
    goes(2, 0, 1, 2 + ENTRIES, 1, 4);
    stays(3, 0, 0, 1 + ENTRIES, 9);
    goes(3, 0, 0, 2 + ENTRIES, 9, 4);
    stays(4, 0, 1, 1 + ENTRIES, 9);
    goes(4, 0, 1, 2 + ENTRIES, 9, 4);
    finish("the 33rd entry with its value");

    /* value 1 has no dot, and counts toward no limit */
    begin();
    stays(1, 0, 1, 0, 2);
    stays(2, 0, 1, 5, 1);
    stays(3, 0, 0, 5, 10);
    goes(3, 1, 0, 5, 11, 4);
    for (unsigned index = 2; index <= VALUES; index++)
        add(3, index, 0, 5, 10 + index, 5, (int)index - 1);
    goes(3, 1 + VALUES, 0, 5, 99, 4);
    stays(4, 0, 1, 5, 1);
    for (unsigned index = 2; index <= VALUES; index++)
        add(4, index, 1, 5, 1, 5, (int)index - 1);
    goes(4, 1 + VALUES, 1, 5, 1, 4);
    finish("a fifth value");

    begin();
    for (unsigned index = 0; index < WAITING; index++)
        stays(5, index, 1, 0, 1 + index);
    goes(5, WAITING, 1, 0, 1, 4); /* equal to the first: that it could be united is not looked at */
    stays(6, 0, 0, 5, 0);
    goes(6, WAITING, 0, 5, 0, 4);
    finish("a 17th removal that waits");

    begin();
    stays(5, 0, 1, 0, 1);
    for (unsigned key = 0; key < KEYS; key++)
        stays(6, 0, 0, key, 0);
    goes(6, 0, 0, KEYS, 0, 4);
    finish("a 17th key of one removal");

    /* 0 lists the even keys, 1 the odd ones: the 16 lowest stay */
    begin();
    stays(5, 0, 1, 0, 1);
    goes(5, 1, 1, 0, 1, 5);
    for (unsigned key = 0; key < 2 * KEYS; key++) {
        if (key >= KEYS)
            goes(6, key % 2, 0, key, 0, 5);
        else if (key % 2 == 0)
            stays(6, 0, 0, key, 0);
        else
            add(6, 1, 0, key, 0, 5, 0);
    }
    finish("more keys than may be in a union");
}

/* The longest image, and inputs around it in length. */
static void longest(void)
{
    begin();
    for (unsigned actor = 0; actor < 8; actor++)
        stays(1, 0, actor, 0, 9);
    for (unsigned key = 0; key < 32; key++)
        for (unsigned actor = 0; actor < 8; actor++)
            stays(2, 0, actor, key, 9);
    for (unsigned key = 0; key < 32; key++)
        for (unsigned index = 0; index < 4; index++)
            stays(3, index, index, key, 9);
    for (unsigned key = 0; key < 32; key++)
        for (unsigned index = 0; index < 4; index++)
            for (unsigned actor = 0; actor < 8; actor++)
                stays(4, index, actor, key, 9);
    for (unsigned index = 0; index < 16; index++)
        for (unsigned actor = 0; actor < 8; actor++)
            stays(5, index, actor, 0, 10 + index);
    for (unsigned key = 0; key < 16; key++)
        for (unsigned index = 0; index < 16; index++)
            stays(6, index, 0, key, 0);
    report(image_len == CASTRIBBA_LONGEST_MAP, "the length of the longest image");
    finish("the longest image");

    refuses("a byte more", castribba_salvage(image, image_len + 1, OUT), 2);
    refuses("a byte more, reported", castribba_salvage_report(image, image_len + 1, OUT), 2);
    refuses("a byte more before a short buffer", castribba_salvage(image, image_len + 1, out, 0), 2);
    refuses("a byte more, reported, before a short buffer",
            castribba_salvage_report(image, image_len + 1, out, 0), 2);
    refuses("a short buffer for the longest", castribba_salvage(image, image_len, out, image_len - 1), 10);

    /* nothing but bad records: the longest report, and an answer that needs no room */
    memset(image, 0xFF, sizeof image);
    told_len = 0;
    for (unsigned place = 0; place < CASTRIBBA_LONGEST_MAP / 16; place++, told_len += CASTRIBBA_TOLD) {
        const uint8_t record[] = {TOLD(place, 2)};
        memcpy(told + told_len, record, sizeof record);
    }
    mends("nothing but bad records", image, CASTRIBBA_LONGEST_MAP, NULL, 0, told, told_len);
    gives("nothing comes back into no buffer", castribba_salvage(image, CASTRIBBA_LONGEST_MAP, NULL, 0), NULL, 0);
    refuses("a short buffer for the longest report",
            castribba_salvage_report(image, CASTRIBBA_LONGEST_MAP, out, told_len - 1), 10);
    report(told_len <= CASTRIBBA_LONGEST_REPORT, "the length of the longest report");
    told[told_len - 1] = 1;
    mends("the same with a byte lost", image, CASTRIBBA_LONGEST_MAP - 1, NULL, 0, told, told_len);
}

static void buffers(void)
{
    static const uint8_t worn[] = {CLOCK, CLOCK, ENTRY, FORTY, ITS_DOT}, map[] = {MAP};
    static const uint8_t twice[] = {TOLD(1, 3)};
    for (size_t room = 0; room < sizeof map; room++)
        refuses("a short buffer", castribba_salvage(IMAGE(worn), out, room), 10);
    for (size_t room = 0; room < sizeof twice; room++)
        refuses("a short buffer, reported", castribba_salvage_report(IMAGE(worn), out, room), 10);
    gives("just room enough", castribba_salvage(IMAGE(worn), out, sizeof map), IMAGE(map));
    gives("just room enough, reported", castribba_salvage_report(IMAGE(worn), out, sizeof twice), IMAGE(twice));
    gives("an accepted image has nothing to tell, into no buffer", castribba_salvage_report(IMAGE(map), NULL, 0), map, 0);
    gives("no input and no buffer", castribba_salvage(NULL, 0, NULL, 0), map, 0);
}

int main(void)
{
    paint();
    steps_one_to_three();
    needs();
    step_five();
    limits();
    longest();
    buffers();
    printf("mended: %d checks, %d differences\n", checks, failures);
    return failures != 0;
}
