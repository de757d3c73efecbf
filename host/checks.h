/* checks.h: what the C programs that check a call's answer share. A program defines CHECKS_NAME, what
 * it prints before a difference, and CHECKS_OUT, the bytes of its output buffer, before it includes
 * this file. */
#ifndef CASTRIBBA_CHECKS_H
#define CASTRIBBA_CHECKS_H

#include <stddef.h>
#include <stdint.h>
#include <stdio.h>
#include <string.h>

enum { PAINT = 0xEE };

/* A record as document 01 lays it out: kind, index, actor, key, number, little-endian. */
#define TWO(n) (uint8_t)(n), (uint8_t)((n) >> 8)
#define FOUR(n) TWO(n), TWO((n) >> 16)
#define EIGHT(n) FOUR((uint64_t)(n)), FOUR((uint64_t)(n) >> 32)
#define ROW(kind, index, actor, key, number) \
    (kind), (index), TWO(actor), FOUR(key), EIGHT(number)

#define IMAGE(bytes) (bytes), sizeof(bytes)
#define OUT out, sizeof out

static uint8_t out[CHECKS_OUT];
static int checks, failures;

static void report(int holds, const char *what)
{
    checks++;
    if (!holds) {
        failures++;
        printf(CHECKS_NAME ": DIFFERENCE in %s\n", what);
    }
}

static void paint(void)
{
    memset(out, PAINT, sizeof out);
}

/* Accepted: number 0, exactly the expected bytes, and paint behind them. */
static void gives(const char *what, uint64_t word, const uint8_t *bytes, size_t len)
{
    int holds = word == len && memcmp(out, bytes, len) == 0;
    for (size_t place = len; place < sizeof out; place++)
        holds = holds && out[place] == PAINT;
    report(holds, what);
    paint();
}

/* Refused: the number, length 0, and paint everywhere. */
static void refuses(const char *what, uint64_t word, uint32_t number)
{
    int holds = word == (uint64_t)number << 32;
    for (size_t place = 0; place < sizeof out; place++)
        holds = holds && out[place] == PAINT;
    report(holds, what);
    paint();
}

#endif
