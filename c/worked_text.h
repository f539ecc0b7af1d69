/* For c/worked.c: the numbers of a line read, and those of an answer printed. Each reader answers where it stopped. */
#ifndef WORKED_TEXT_H
#define WORKED_TEXT_H

#include "desk.h"

#include <inttypes.h>
#include <stdio.h>
#include <string.h>

/* What buffers hold before a call; and at most so many bad places stand in a question. */
enum { FILL = 0xEE, MOST_BAD = 8 };

/* Whether nothing more stands in the line. */
static int is_end(const char *at) { return at[strspn(at, " \n")] == '\0'; }

/* A code's columns; places past them hold 0. */
static const char *read_columns(const char *at, uint16_t *columns, size_t places) {
    int more;
    memset(columns, 0, places * sizeof *columns);
    for (size_t i = 0; i < places && sscanf(at, "%" SCNu16 "%n", &columns[i], &more) == 1; i++) {
        at += more;
    }
    return at;
}

/* A journal's first bytes; the rest is filled. */
static const char *read_bytes(const char *at, uint8_t *bytes, size_t length) {
    int more;
    memset(bytes, FILL, length);
    for (size_t i = 0; i < length && sscanf(at, "%" SCNx8 "%n", &bytes[i], &more) == 1; i++) {
        at += more;
    }
    return at;
}

/* The bad places behind a word: how many. */
static size_t read_places(const char *at, size_t bad[MOST_BAD]) {
    size_t count = 0;
    int more;
    while (count < MOST_BAD && sscanf(at, "%zu%n", &bad[count], &more) == 1) {
        at += more;
        count++;
    }
    return count;
}

/* The length of a filled buffer without the bytes at its end that stayed. */
static size_t changed(const uint8_t *bytes, size_t length) {
    while (length > 0 && bytes[length - 1] == FILL) {
        length--;
    }
    return length;
}

static void print_bytes(const char *format, const uint8_t *bytes, size_t length) {
    for (size_t i = 0; i < length; i++) {
        printf(format, bytes[i]);
    }
}

/* The columns up to those that are 0. */
static void print_columns(const uint16_t *columns, size_t places) {
    while (places > 0 && columns[places - 1] == 0) {
        places--;
    }
    for (size_t i = 0; i < places; i++) {
        printf(" %d", columns[i]);
    }
}

/* The ones of a matrix: those of k columns, and r. */
static void print_ones(const uint16_t *columns, size_t k, size_t r) {
    size_t ones = r;
    for (size_t i = 0; i < k; i++) {
        ones += (size_t)__builtin_popcount(columns[i]);
    }
    printf(" %zu", ones);
}

/* One answer for every k, or each that differs from the one before. */
static void print_wanted(DeskCheckBits (*wanted)(size_t), size_t from, size_t to) {
    DeskCheckBits last = {0, 0};
    for (size_t k = from; k <= to; k++) {
        DeskCheckBits a = wanted(k);
        if (k == from || a.number != last.number || a.bits != last.bits) {
            printf(" %zu %zu", a.number, a.bits);
        }
        last = a;
    }
}

static void print_rows(DeskRowBalance a) {
    printf(" %zu %zu", a.number, a.told);
    for (size_t row = 0; row < DESK_ROWS; row++) {
        printf(" %" PRId32, a.rows[row]);
    }
}

static void print_read(DeskReadWord a) {
    printf(" %zu %zu %zu %zu", a.number, a.told, a.verdict, a.place);
    printf(" %" PRIX64 " %d %d", a.data, a.check, a.syndrome);
}

static void print_cards(DeskCardCheck a) { printf(" %zu %zu %zu %zu", a.number, a.told, a.card, a.mask); }

static void print_list(DeskListing a, const uint8_t *list, size_t length) {
    printf(" %zu %zu %zu", a.number, a.told, a.length);
    print_bytes(" %d", list, changed(list, length));
}

static void print_tally(DeskPassAnswer a) {
    DeskTally t = a.tally;
    printf(" %zu %zu %zu", a.number, a.told, a.used);
    printf(" %d %d %d %d %d %d", t.clean, t.data, t.check, t.even, t.odd, t.stray);
}

#endif
