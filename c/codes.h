/* For the C tests: the codes that they ask about, records, and filled buffers. */
#ifndef CODES_H
#define CODES_H

#include "desk.h"

#include <string.h>

/* The code of these data columns with r check bits. */
static inline DeskCode code_of(const uint16_t *columns, size_t k, size_t r) {
    DeskCode code = {.k = k, .r = r};
    for (size_t i = 0; i < k && i < DESK_COLUMNS; i++) {
        code.columns[i] = columns[i];
    }
    return code;
}

/* Source document 002, figure 2. */
static inline DeskCode sample(void) {
    static const uint16_t columns[] = {28, 26, 25, 22, 21, 19, 14, 13};
    return code_of(columns, 8, 5);
}

/* The 64 lowest columns of an odd weight of three or more, with r check bits; 8 are enough. */
static inline DeskCode full(size_t r) {
    DeskCode code = {.r = r};
    for (unsigned column = 0; code.k < DESK_COLUMNS; column++) {
        int ones = __builtin_popcount(column);
        if (ones % 2 == 1 && ones > 1) {
            code.columns[code.k++] = (uint16_t)column;
        }
    }
    return code;
}

/* A record: data and check bits, low byte first. */
static inline void put_record(uint8_t *record, uint64_t data, uint16_t check) {
    for (int i = 0; i < 8; i++) {
        record[i] = (uint8_t)(data >> (8 * i));
    }
    record[8] = (uint8_t)check;
    record[9] = (uint8_t)(check >> 8);
}

/* Whether every byte still has the value that it was filled with. */
static inline int is_filled(const uint8_t *bytes, size_t length, uint8_t fill) {
    for (size_t i = 0; i < length; i++) {
        if (bytes[i] != fill) {
            return 0;
        }
    }
    return 1;
}

#endif
