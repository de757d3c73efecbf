/* mailbox.c: a map that comes through a drive's mailbox, acted out through the calls on pieces of
 * castribba.h and printed for a reader.
 *
 * The mailbox moves at most 64 bytes at once, and the drive has no room for a whole image on its way. No
 * heap: every buffer is static.
 */
#include <castribba.h>

#include <inttypes.h>
#include <stdio.h>
#include <stdlib.h>
#include <string.h>

enum { MAILBOX = 64, PAINT = 0xEE };

/* What the reader holds, added up: the mark, the length, a record that is not whole yet, what is known of
 * the records before, the counts; then the map. A dot has 10 bytes, a key 4, a value 8 and its origin 2. */
enum {
    CLOCK = 1 + CASTRIBBA_MOST_DOTS * 10,
    ENTRY = 4 + CLOCK + 1 + CASTRIBBA_MOST_VALUES * (8 + 2 + CLOCK),
    REMOVAL = CLOCK + 1 + CASTRIBBA_MOST_KEYS * 4,
    READER = 1 + 4 + CASTRIBBA_RECORD + (1 + 1 + CASTRIBBA_RECORD + 6 + 256) + 3 + CLOCK +
             CASTRIBBA_MOST_ENTRIES * ENTRY + CASTRIBBA_MOST_WAITING * REMOVAL
};
_Static_assert(CASTRIBBA_PIECES == READER, "the header has another size");
_Static_assert(sizeof(castribba_pieces) == CASTRIBBA_PIECES, "the struct has padding");
_Static_assert(_Alignof(castribba_pieces) == 1, "the reader may lie anywhere");

/* The reader with bytes around it that no call may touch. */
static struct {
    uint8_t before[MAILBOX + 1];
    castribba_pieces reader;
    uint8_t behind[MAILBOX];
} drive;

static uint8_t sent[CASTRIBBA_LONGEST_MAP + 1], received[CASTRIBBA_LONGEST_MAP];
static castribba_pieces kept; /* the reader as it was */

/* Telling the story, and stopping it where it goes wrong. */

static const char *step = "start";

static void begin(const char *title)
{
    step = title;
    printf("\n%s\n", title);
}

static void check(int holds, const char *what)
{
    if (!holds) {
        fprintf(stderr, "mailbox: FAILED in step '%s': %s\n", step, what);
        exit(1);
    }
}

static int painted(const uint8_t *bytes, size_t len)
{
    size_t place = 0;
    while (place < len && bytes[place] == PAINT)
        place++;
    return place == len;
}

static void said(const char *who, uint64_t word)
{
    uint32_t number = CASTRIBBA_NUMBER(word);
    printf("  %s: %" PRIu32 ", %s", who, number, castribba_number_text(number));
    if (CASTRIBBA_LENGTH(word) != 0)
        printf("; an image of %" PRIu32 " bytes", CASTRIBBA_LENGTH(word));
    printf("\n");
}

static uint64_t refused(uint32_t number)
{
    return (uint64_t)number << 32;
}

/* The map that is sent. */

static size_t put_record(size_t at, unsigned kind, unsigned index, unsigned actor, uint32_t key,
                         uint64_t number)
{
    uint8_t *bytes = sent + at;
    bytes[0] = (uint8_t)kind;
    bytes[1] = (uint8_t)index;
    for (int place = 0; place < 2; place++)
        bytes[2 + place] = (uint8_t)(actor >> 8 * place);
    for (int place = 0; place < 4; place++)
        bytes[4 + place] = (uint8_t)(key >> 8 * place);
    for (int place = 0; place < 8; place++)
        bytes[8 + place] = (uint8_t)(number >> 8 * place);
    return at + CASTRIBBA_RECORD;
}

/* A map with all that fits: its image is the longest there is. */
static size_t put_full_map(void)
{
    size_t at = 0;
    for (unsigned actor = 0; actor < CASTRIBBA_MOST_DOTS; actor++)
        at = put_record(at, CASTRIBBA_CLOCK_DOT, 0, actor, 0, 9);
    for (uint32_t key = 1; key <= CASTRIBBA_MOST_ENTRIES; key++)
        for (unsigned actor = 0; actor < CASTRIBBA_MOST_DOTS; actor++)
            at = put_record(at, CASTRIBBA_ENTRY_DOT, 0, actor, key, 9);
    for (uint32_t key = 1; key <= CASTRIBBA_MOST_ENTRIES; key++)
        for (unsigned index = 0; index < CASTRIBBA_MOST_VALUES; index++)
            at = put_record(at, CASTRIBBA_VALUE, index, 0x0100 + key, key, 40 + index);
    for (uint32_t key = 1; key <= CASTRIBBA_MOST_ENTRIES; key++)
        for (unsigned index = 0; index < CASTRIBBA_MOST_VALUES; index++)
            for (unsigned actor = 0; actor < CASTRIBBA_MOST_DOTS; actor++)
                at = put_record(at, CASTRIBBA_VALUE_DOT, index, actor, key, 9 + (actor == index));
    for (unsigned index = 0; index < CASTRIBBA_MOST_WAITING; index++)
        for (unsigned actor = 0; actor < CASTRIBBA_MOST_DOTS; actor++)
            at = put_record(at, CASTRIBBA_WAITING_DOT, index, actor, 0, 10 + index);
    for (uint32_t key = 1; key <= CASTRIBBA_MOST_KEYS; key++)
        for (unsigned index = 0; index < CASTRIBBA_MOST_WAITING; index++)
            at = put_record(at, CASTRIBBA_WAITING_KEY, index, 0, key, 0);
    return at;
}

/* The calls, each checked. */

static void open_reader(void)
{
    check(castribba_pieces_begin(&drive.reader) == 0, "begin answers 0, always");
}

static void take(const uint8_t *piece, size_t len)
{
    check(castribba_pieces_take(&drive.reader, piece, len) == 0, "a piece was not taken");
}

/* Bytes of `sent` in pieces of one length; how many those were. */
static int take_in_pieces(size_t from, size_t to, size_t piece)
{
    int count = 0;
    for (; from < to; count++) {
        size_t len = to - from < piece ? to - from : piece;
        take(sent + from, len);
        from += len;
    }
    return count;
}

/* The end is refused: nothing is written, and the reader is as it was, but for the mark where it ended. */
static void end_refused(size_t room, uint32_t number, int ends)
{
    memset(received, PAINT, sizeof received);
    kept = drive.reader;
    uint64_t word = castribba_pieces_end(&drive.reader, received, room);
    check(word == refused(number), "the end answers another number");
    check(painted(received, sizeof received), "a refused end wrote");
    check(memcmp(kept.bytes + ends, drive.reader.bytes + ends, CASTRIBBA_PIECES - (size_t)ends) == 0,
          "a refused end changed the reader");
    said("the end", word);
}

/* The end delivers the first `len` bytes of `sent`, and not a byte more. */
static void end_delivers(size_t room, size_t len)
{
    memset(received, PAINT, sizeof received);
    uint64_t word = castribba_pieces_end(&drive.reader, received, room);
    check(word == len, "the end answers another word");
    check(memcmp(received, sent, len) == 0, "another image came out than was sent");
    check(painted(received + len, sizeof received - len), "the end wrote behind the image");
    said("the end", word);
}

/* Numbers that look random, the same in every run (xorshift). */
static uint32_t below(uint32_t bound)
{
    static uint32_t state = 20261115;
    state ^= state << 13;
    state ^= state >> 17;
    state ^= state << 5;
    return state % bound;
}

/* The story. */

static void before_begin(void)
{
    begin("1. The drive starts up: no begin has touched the reader's memory.");
    memset(&drive, PAINT, sizeof drive);
    check(castribba_pieces_take(&drive.reader, sent, MAILBOX) == refused(CASTRIBBA_ENDED),
          "a reader that was not begun took a piece");
    end_refused(sizeof received, CASTRIBBA_ENDED, 0);
    check(painted((const uint8_t *)&drive, sizeof drive), "a refused call changed memory");
}

static void by_mailbox(size_t len)
{
    begin("2. A full map comes in pieces of 64 bytes.");
    open_reader();
    int pieces = take_in_pieces(0, len, MAILBOX);
    printf("  %d pieces into a reader of %zu bytes; no map is handed out before the end\n", pieces,
           sizeof drive.reader);
    end_delivers(sizeof received, len);
    check(painted(drive.before, sizeof drive.before) && painted(drive.behind, sizeof drive.behind),
          "memory around the reader changed");
    /* a full map needs all of it: a header with a larger size would show here */
    check(drive.reader.bytes[CASTRIBBA_PIECES - 1] != PAINT, "the reader's last byte is not used");
}

static void by_byte(size_t len)
{
    begin("3. The same map, byte by byte.");
    open_reader();
    printf("  %d pieces\n", take_in_pieces(0, len, 1));
    end_delivers(sizeof received, len);
}

static void by_chance(size_t len)
{
    begin("4. The same map, cut anywhere: pieces of 0 to 200 bytes, ten times.");
    int pieces = 0, empty = 0, within = 0;
    for (int time = 0; time < 10; time++) {
        open_reader();
        for (size_t from = 0; from < len; pieces++) {
            size_t piece = below(201);
            piece = len - from < piece ? len - from : piece;
            take(piece == 0 ? NULL : sent + from, piece);
            from += piece;
            empty += piece == 0;
            within += from % CASTRIBBA_RECORD != 0;
        }
        memset(received, 0, sizeof received);
        check(castribba_pieces_end(&drive.reader, received, sizeof received) == len &&
                  memcmp(received, sent, len) == 0,
              "a way of cutting made a difference");
    }
    printf("  %d pieces, %d of them empty; %d ended within a record; the same image each time\n",
           pieces, empty, within);
}

static void cut_record(size_t len)
{
    begin("5. The drive is pulled after 100 bytes: the seventh record has 4 of its 16 bytes.");
    open_reader();
    take_in_pieces(0, 100, MAILBOX);
    end_refused(sizeof received, CASTRIBBA_MALFORMED, 1);
    printf("  plugged back in, it begins anew\n");
    open_reader();
    take_in_pieces(0, len, MAILBOX);
    end_delivers(sizeof received, len);
}

static void too_long(size_t len)
{
    begin("6. A stream that does not stop: a full map, and a megabyte behind it.");
    open_reader();
    take_in_pieces(0, len, MAILBOX);
    for (int piece = 0; piece < 16384; piece++)
        take(sent, MAILBOX);
    printf("  each piece is taken\n");
    end_refused(sizeof received, CASTRIBBA_OVER_LIMIT, 1);
    open_reader();
    take_in_pieces(0, len, MAILBOX);
    take(sent, 1);
    printf("  a single byte too many\n");
    end_refused(sizeof received, CASTRIBBA_OVER_LIMIT, 1);
}

static void short_buffer(size_t len)
{
    begin("7. The end is told too early, and with a buffer that is too short: the reader stays open.");
    open_reader();
    take_in_pieces(0, CASTRIBBA_RECORD * CASTRIBBA_MOST_DOTS, MAILBOX);
    printf("  the map clock has come, which is a map by itself; a buffer of 0 bytes\n");
    end_refused(0, CASTRIBBA_SHORT_BUFFER, 0);
    take_in_pieces(CASTRIBBA_RECORD * CASTRIBBA_MOST_DOTS, len, MAILBOX);
    printf("  the rest has come; a buffer of a byte less than the image\n");
    end_refused(len - 1, CASTRIBBA_SHORT_BUFFER, 0);
    printf("  a buffer that is just as long\n");
    end_delivers(len, len);
}

static void after_the_end(size_t len)
{
    begin("8. After the end a piece comes, and the end is told again: refused, and nothing changes.");
    kept = drive.reader;
    uint64_t word = castribba_pieces_take(&drive.reader, sent, MAILBOX);
    check(word == refused(CASTRIBBA_ENDED), "a piece was taken after the end");
    check(memcmp(&kept, &drive.reader, sizeof kept) == 0, "a refused piece changed the reader");
    said("the piece", word);
    check(castribba_pieces_take(&drive.reader, NULL, 0) == word, "an empty piece was taken after the end");
    end_refused(sizeof received, CASTRIBBA_ENDED, 0);

    begin("9. The reader is begun again, and given up halfway for another begin.");
    open_reader();
    take_in_pieces(len / 2, len, MAILBOX);
    open_reader();
    end_delivers(0, 0);
    printf("  no piece at all is the empty map\n");
}

int main(void)
{
    static char line[BUFSIZ]; /* otherwise stdio would ask the heap for one */
    setvbuf(stdout, line, _IOFBF, sizeof line);
    size_t len = put_full_map();
    check(len == CASTRIBBA_LONGEST_MAP && castribba_len(sent, len) == 0, "the map is not a full one");
    printf("A map through the mailbox: %zu bytes, 64 at most at once.\n", len);
    before_begin();
    by_mailbox(len);
    by_byte(len);
    by_chance(len);
    cut_record(len);
    too_long(len);
    short_buffer(len);
    after_the_end(len);
    printf("\nThe map has arrived, and every answer was as expected.\n");
    return 0;
}
