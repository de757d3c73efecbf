/* castribba_common.h: what castribba.h, loader.h and salvage.h share. Include one of those, or several.
 *
 * What holds for every call:
 * - It is total: it takes buffers of every length and content, and ends. It keeps no state (what comes in
 *   pieces is kept in memory that the caller lends), needs no set-up, and is reentrant: threads may call
 *   it at once, each with an output, or a lent struct, of its own.
 * - Buffers may lie at any address, aligned or not. An output, or a lent struct, must not overlap anything
 *   else that the call is given. A pointer may be null where its length is 0.
 * - Images and reports are little-endian, whatever machine writes them. docs/FORMAT.md lays them out.
 * - The archives are for x86-64 under the System V convention: at a call the stack is aligned to 16
 *   bytes; SSE registers and the 128 bytes below the stack pointer (the red zone) are used. They need
 *   `memcpy`, and castribba's and salvage's `memset` too, from the program around them and nothing else:
 *   no heap, no other libc, no system call.
 *   docs/INTEGRATING.md says what that means for a kernel, a boot loader and another machine.
 * - The stack that each call uses is in docs/MEASURES.md.
 */
#ifndef CASTRIBBA_COMMON_H
#define CASTRIBBA_COMMON_H

#include <stddef.h>
#include <stdint.h>

/* The version of the calls and of the images: 0.2.0 is 200, 1.2.3 would be 10203. */
#define CASTRIBBA_VERSION_MAJOR 0
#define CASTRIBBA_VERSION_MINOR 2
#define CASTRIBBA_VERSION_PATCH 0
#define CASTRIBBA_VERSION \
    (CASTRIBBA_VERSION_MAJOR * 10000 + CASTRIBBA_VERSION_MINOR * 100 + CASTRIBBA_VERSION_PATCH)

/* A call that answers a word packs a number and the length written into it:
 *     word = number * 2^32 + length
 * Number 0 is success; every other number comes with length 0 and changes no byte of any buffer, but for
 * the mark by which castribba_pieces_end says in the reader that it has ended.
 * On success exactly `length` bytes at the start of `out` are written, and none behind them. */
#define CASTRIBBA_NUMBER(word) ((uint32_t)((word) >> 32))
#define CASTRIBBA_LENGTH(word) ((uint32_t)(word))

/* The numbers. 15 is kept for calls to come: a program should expect numbers that it does not
 * know. */
enum castribba_number {
    CASTRIBBA_DONE = 0,             /* done */
    CASTRIBBA_MALFORMED = 1,        /* an image has a bad length, kind, unused field, order or counter */
    CASTRIBBA_OVER_LIMIT = 2,       /* an image is over its longest length, or over a limit below */
    CASTRIBBA_UNRELATED = 3,        /* records of an image that belong together do not */
    CASTRIBBA_TOO_MANY_DOTS = 4,    /* the result would have a clock of more than 8 dots */
    CASTRIBBA_TOO_MANY_ENTRIES = 5, /* the result would have more than 32 entries */
    CASTRIBBA_TOO_MANY_VALUES = 6,  /* the result would have more than 4 values side by side */
    CASTRIBBA_TOO_MANY_WAITING = 7, /* the result would have more than 16 waiting removals */
    CASTRIBBA_TOO_MANY_KEYS = 8,    /* the result would have a waiting removal of more than 16 keys */
    CASTRIBBA_COUNTER_SPENT = 9,    /* the actor's counter is 2^64-1: no update can be made */
    CASTRIBBA_SHORT_BUFFER = 10,    /* the output buffer is shorter than the answer */
    CASTRIBBA_GAP = 11,             /* validate_op: counters of the actor are missing before this update */
    CASTRIBBA_DOUBLE_SPENT = 12,    /* validate_merge: the maps hold one dot under different keys */
    CASTRIBBA_ENDED = 13,           /* the calls on pieces: the reader has ended, or was not begun */
    CASTRIBBA_NO_BAY = 14,          /* the loader's calls: there is no such bay */
    CASTRIBBA_ENDS_ELSEWHERE = 16,  /* catch_up: the operations end in another map's image than theirs */
    CASTRIBBA_TOO_MANY_OPERATIONS = 17, /* catch_up: more than 32 operations */
    CASTRIBBA_TOO_MANY_PEERS = 18,  /* castribba_floor: more than 64 peers */
    CASTRIBBA_FOREIGN = 19,         /* ready: not castribba_update's: the put clock lacks its own dot */
    CASTRIBBA_SEEN = 20,            /* ready: the map has seen the update */
    CASTRIBBA_HOLD = 21             /* ready: something that the update's writer had seen is missing */
};

/* The number in words, for a number that this version does not know too. It is no part of the
 * archives: compile castribba_text.c, which lies beside this header, into your program, or link
 * libcastribba_text.a where it is installed (the .pc files name it). */
#ifdef __cplusplus
extern "C"
#endif
const char *castribba_number_text(uint32_t number);

/* The kinds of records, byte 0 of each: 1 to 6 make a map, 1 alone a clock, 7 to 12 an operation. */
enum castribba_kind {
    CASTRIBBA_CLOCK_DOT = 1,   /* actor, counter: the map has seen so many updates of this actor */
    CASTRIBBA_ENTRY_DOT = 2,   /* key, actor, counter: an update of this key that was not removed */
    CASTRIBBA_VALUE = 3,       /* key, index, value; its origin in the actor's place */
    CASTRIBBA_VALUE_DOT = 4,   /* key, index, actor, counter: what the writer of that value had seen */
    CASTRIBBA_WAITING_DOT = 5, /* index, actor, counter: the clock of a removal that waits */
    CASTRIBBA_WAITING_KEY = 6, /* index, key: a key that it removes */
    CASTRIBBA_REMOVAL = 7,     /* the head of a removal */
    CASTRIBBA_REMOVAL_DOT = 8, /* actor, counter: its clock */
    CASTRIBBA_REMOVAL_KEY = 9, /* key: a key that it removes */
    CASTRIBBA_UPDATE = 10,     /* the head of an update: key, and its dot as actor, counter */
    CASTRIBBA_PUT_VALUE = 11,  /* value; its origin in the actor's place */
    CASTRIBBA_PUT_DOT = 12     /* actor, counter: what the writer had seen, this update included */
};

/* Bytes of a record, and the longest image of each sort. The empty map has no bytes. */
#define CASTRIBBA_RECORD 16
#define CASTRIBBA_LONGEST_MAP 28800
#define CASTRIBBA_LONGEST_OPERATION 400
#define CASTRIBBA_LONGEST_CLOCK 128

/* Bytes of a record of castribba_differences, and its longest report: 64 keys. */
#define CASTRIBBA_DIFFERENCE 5
#define CASTRIBBA_LONGEST_DIFFERENCES 320

/* The limits: dots in any clock, entries of a map, values of an entry, waiting removals, keys in each
 * of those or in a removal. */
#define CASTRIBBA_MOST_DOTS 8
#define CASTRIBBA_MOST_ENTRIES 32
#define CASTRIBBA_MOST_VALUES 4
#define CASTRIBBA_MOST_WAITING 16
#define CASTRIBBA_MOST_KEYS 16

/* The most peers that castribba_floor takes. */
#define CASTRIBBA_MOST_PEERS 64

#endif
