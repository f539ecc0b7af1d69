/*
 * Which bytes the archive writes. An answer over 16 bytes goes through a pointer that the caller hands over ahead of
 * the arguments; here the functions are declared so, without desk.h, and asked with guards about the answer. A byte is
 * written if it is the same afterwards, whatever was there before. layout.txt has the sizes.
 */
#include "cases.h"

#include <stdint.h>
#include <string.h>

typedef struct Code {
    uint16_t columns[64];
    size_t k;
    size_t r;
} Code;

typedef struct WideCode {
    uint16_t columns[128];
    size_t k;
    size_t r;
} WideCode;

typedef struct RowCode {
    uint16_t columns[80];
    size_t n;
    size_t r;
    uint16_t rows;
} RowCode;

typedef struct WideRowCode {
    uint16_t columns[144];
    size_t n;
    size_t r;
    uint16_t rows;
} WideRowCode;

typedef struct WideWord {
    uint64_t low;
    uint64_t high;
    uint16_t check;
} WideWord;

void desk_row_balance(void *answer, Code code);
void desk_write(void *answer, Code code, uint64_t data);
void desk_read(void *answer, Code code, uint64_t data, uint16_t check);
void desk_explain(void *answer, Code code, uint64_t data, uint16_t check, size_t limit, uint8_t *list, size_t length);
void desk_cards(void *answer, Code code, size_t b);
void desk_pass(void *answer, Code code, uint8_t *image, size_t image_length, size_t start, size_t end, uint8_t *journal,
               size_t journal_length, size_t used, uint32_t stamp);
void desk_quick_pass(void *answer, Code code, uint8_t *image, size_t image_length, size_t start, size_t end,
                     uint8_t *journal, size_t journal_length, size_t used, uint32_t stamp);
void desk_put_back(void *answer, uint8_t *image, size_t image_length, const uint8_t *journal, size_t journal_length,
                   size_t used);
void desk_sheet_ceiling(void *answer, double hours, size_t devices, size_t words, size_t mended, double high);
void desk_sheet_band(void *answer, double hours, size_t devices, size_t words, size_t mended, double low, double high);
void desk_sheet_open(void *answer, double hours, size_t devices, size_t words, size_t mended);
void desk_make(void *answer, size_t k, size_t r);
void desk_byte_write(void *answer, uint64_t data);
void desk_byte_read(void *answer, uint64_t word);
void desk_recover(void *answer, Code code, uint64_t data, uint16_t check, const size_t *bad, size_t count);
void desk_find_bad(void *answer, Code code, uint64_t first_data, uint16_t first_check, uint64_t second_data,
                   uint16_t second_check);
void desk_wide_row_balance(void *answer, WideCode code);
void desk_wide_write(void *answer, WideCode code, uint64_t low, uint64_t high);
void desk_wide_read(void *answer, WideCode code, uint64_t low, uint64_t high, uint16_t check);
void desk_wide_explain(void *answer, WideCode code, uint64_t low, uint64_t high, uint16_t check, size_t limit,
                       uint8_t *list, size_t length);
void desk_wide_cards(void *answer, WideCode code, size_t b);
void desk_wide_pass(void *answer, WideCode code, uint8_t *image, size_t image_length, size_t start, size_t end,
                    uint8_t *journal, size_t journal_length, size_t used, uint32_t stamp);
void desk_wide_quick_pass(void *answer, WideCode code, uint8_t *image, size_t image_length, size_t start, size_t end,
                          uint8_t *journal, size_t journal_length, size_t used, uint32_t stamp);
void desk_wide_put_back(void *answer, uint8_t *image, size_t image_length, const uint8_t *journal,
                        size_t journal_length, size_t used);
void desk_wide_make(void *answer, size_t k, size_t r);
void desk_wide_recover(void *answer, WideCode code, uint64_t low, uint64_t high, uint16_t check, const size_t *bad,
                       size_t count);
void desk_wide_find_bad(void *answer, WideCode code, WideWord first, WideWord second);
void desk_rows_row_balance(void *answer, RowCode code);
void desk_rows_write(void *answer, RowCode code, uint64_t data);
void desk_rows_read(void *answer, RowCode code, uint64_t data, uint16_t check);
void desk_rows_explain(void *answer, RowCode code, uint64_t data, uint16_t check, size_t limit, uint8_t *list,
                       size_t length);
void desk_rows_cards(void *answer, RowCode code, size_t b);
void desk_rows_pass(void *answer, RowCode code, uint8_t *image, size_t image_length, size_t start, size_t end,
                    uint8_t *journal, size_t journal_length, size_t used, uint32_t stamp);
void desk_rows_quick_pass(void *answer, RowCode code, uint8_t *image, size_t image_length, size_t start, size_t end,
                          uint8_t *journal, size_t journal_length, size_t used, uint32_t stamp);
void desk_rows_recover(void *answer, RowCode code, uint64_t data, uint16_t check, const size_t *bad, size_t count);
void desk_rows_find_bad(void *answer, RowCode code, uint64_t first_data, uint16_t first_check, uint64_t second_data,
                        uint16_t second_check);
void desk_wide_rows_row_balance(void *answer, WideRowCode code);
void desk_wide_rows_write(void *answer, WideRowCode code, uint64_t low, uint64_t high);
void desk_wide_rows_read(void *answer, WideRowCode code, uint64_t low, uint64_t high, uint16_t check);
void desk_wide_rows_explain(void *answer, WideRowCode code, uint64_t low, uint64_t high, uint16_t check, size_t limit,
                            uint8_t *list, size_t length);
void desk_wide_rows_cards(void *answer, WideRowCode code, size_t b);
void desk_wide_rows_pass(void *answer, WideRowCode code, uint8_t *image, size_t image_length, size_t start, size_t end,
                         uint8_t *journal, size_t journal_length, size_t used, uint32_t stamp);
void desk_wide_rows_quick_pass(void *answer, WideRowCode code, uint8_t *image, size_t image_length, size_t start,
                               size_t end, uint8_t *journal, size_t journal_length, size_t used, uint32_t stamp);
void desk_wide_rows_recover(void *answer, WideRowCode code, uint64_t low, uint64_t high, uint16_t check,
                            const size_t *bad, size_t count);
void desk_wide_rows_find_bad(void *answer, WideRowCode code, WideWord first, WideWord second);

static const Code sample = {.columns = {28, 26, 25, 22, 21, 19, 14, 13}, .k = 8, .r = 5};

static void balance_to(void *answer) { desk_row_balance(answer, sample); }
static void write_to(void *answer) { desk_write(answer, sample, 0xFF); }
static void read_to(void *answer) { desk_read(answer, sample, 0xA6, 25); }
static void cards_to(void *answer) { desk_cards(answer, sample, 3); }

static void explain_to(void *answer) {
    uint8_t list[80];
    desk_explain(answer, sample, 0xA6, 27, 2, list, sizeof list);
}

static void pass_to(void *answer) {
    uint8_t image[20] = {0xA4, 0, 0, 0, 0, 0, 0, 0, 27, 0, 0xA6, 0, 0, 0, 0, 0, 0, 0, 27, 0};
    uint8_t journal[3 * 30] = {0};
    desk_pass(answer, sample, image, sizeof image, 0, 2, journal, sizeof journal, 1, 0x04030201);
}

static void quick_pass_to(void *answer) {
    uint8_t image[100 * 10] = {0xA4, 0, 0, 0, 0, 0, 0, 0, 27, 0, 0xA6, 0, 0, 0, 0, 0, 0, 0, 27, 0};
    uint8_t journal[3 * 30] = {0};
    desk_quick_pass(answer, sample, image, sizeof image, 0, 100, journal, sizeof journal, 1, 0x04030201);
}

/* One entry of two is put back, and the other does not match. */
static void put_back_to(void *answer) {
    uint8_t image[20] = {7, 0, 0, 0, 0, 0, 0, 0, 0, 0, 9};
    const uint8_t journal[60] = {[34] = 1, [40] = 8, [50] = 9};
    desk_put_back(answer, image, sizeof image, journal, sizeof journal, 2);
}

static void ceiling_to(void *answer) { desk_sheet_ceiling(answer, 667, 8192, 4, 1, 0.5); }
static void band_to(void *answer) { desk_sheet_band(answer, 667, 8192, 4, 1, 0.5, 1); }
static void open_to(void *answer) { desk_sheet_open(answer, 0, 8192, 4, 1); }
static void make_to(void *answer) { desk_make(answer, 8, 5); }
static void refused_make_to(void *answer) { desk_make(answer, 12, 5); }
static void byte_write_to(void *answer) { desk_byte_write(answer, 8); }
static void byte_read_to(void *answer) { desk_byte_read(answer, 573833224); }

static void recover_to(void *answer) {
    const size_t bad[] = {9, 1, 0};
    desk_recover(answer, sample, 0xA6, 25, bad, 3);
}

static void refused_recover_to(void *answer) { desk_recover(answer, sample, 0xA6, 27, NULL, 0); }
static void find_bad_to(void *answer) { desk_find_bad(answer, sample, 0xA5, 27, 0x5B, 5); }

static const WideCode wide = {.columns = {28, 26, 25, 22, 21, 19, 14, 13}, .k = 8, .r = 5};

static void wide_balance_to(void *answer) { desk_wide_row_balance(answer, wide); }
static void wide_write_to(void *answer) { desk_wide_write(answer, wide, 0xFF, 0); }
static void wide_read_to(void *answer) { desk_wide_read(answer, wide, 0xA6, 0, 25); }
static void wide_refused_read_to(void *answer) { desk_wide_read(answer, wide, 0xA6, 1, 25); }
static void wide_cards_to(void *answer) { desk_wide_cards(answer, wide, 3); }
static void wide_make_to(void *answer) { desk_wide_make(answer, 128, 9); }
static void wide_refused_make_to(void *answer) { desk_wide_make(answer, 128, 8); }
static void wide_refused_recover_to(void *answer) { desk_wide_recover(answer, wide, 0xA6, 0, 27, NULL, 0); }
static void wide_find_bad_to(void *answer) {
    desk_wide_find_bad(answer, wide, (WideWord){0xA5, 0, 27}, (WideWord){0x5B, 0, 5});
}

static void wide_recover_to(void *answer) {
    const size_t bad[] = {9, 1, 0};
    desk_wide_recover(answer, wide, 0xA6, 0, 25, bad, 3);
}

static void wide_explain_to(void *answer) {
    uint8_t list[144];
    desk_wide_explain(answer, wide, 0xA6, 0, 27, 2, list, sizeof list);
}

static void wide_pass_to(void *answer) {
    uint8_t image[2 * 18] = {[0] = 0xA4, [16] = 27, [18] = 0xA6, [34] = 27};
    uint8_t journal[3 * 46] = {0};
    desk_wide_pass(answer, wide, image, sizeof image, 0, 2, journal, sizeof journal, 1, 0x04030201);
}

static void wide_quick_pass_to(void *answer) {
    uint8_t image[100 * 18] = {[0] = 0xA4, [16] = 27, [18] = 0xA6, [34] = 27};
    uint8_t journal[3 * 46] = {0};
    desk_wide_quick_pass(answer, wide, image, sizeof image, 0, 100, journal, sizeof journal, 1, 0x04030201);
}

static void wide_back_to(void *answer) {
    uint8_t image[18] = {0}, journal[2 * 46] = {0};
    desk_wide_put_back(answer, image, sizeof image, journal, sizeof journal, 2);
}

/* Source document 002, figure 3, whose rows 1 to 4 are the set: A5 goes with 0. */
static const RowCode rows = {
    .columns = {28, 14, 22, 26, 29, 3, 5, 9, 17, 2, 4, 8, 16}, .n = 13, .r = 5, .rows = 30};

static void rows_balance_to(void *answer) { desk_rows_row_balance(answer, rows); }
static void rows_write_to(void *answer) { desk_rows_write(answer, rows, 0xFF); }
static void rows_read_to(void *answer) { desk_rows_read(answer, rows, 0xA4, 0); }
static void rows_refused_read_to(void *answer) { desk_rows_read(answer, rows, 0x1A4, 0); }
static void rows_cards_to(void *answer) { desk_rows_cards(answer, rows, 4); }
static void rows_refused_recover_to(void *answer) { desk_rows_recover(answer, rows, 0xA6, 0, NULL, 0); }
static void rows_find_bad_to(void *answer) { desk_rows_find_bad(answer, rows, 0xA5, 0, 0x5B, 30); }

static void rows_recover_to(void *answer) {
    const size_t bad[] = {9, 1, 0};
    desk_rows_recover(answer, rows, 0xA6, 2, bad, 3);
}

static void rows_explain_to(void *answer) {
    uint8_t list[80];
    desk_rows_explain(answer, rows, 0xA6, 0, 2, list, sizeof list);
}

static void rows_pass_to(void *answer) {
    uint8_t image[20] = {0xA4, 0, 0, 0, 0, 0, 0, 0, 0, 0, 0xA6};
    uint8_t journal[3 * 30] = {0};
    desk_rows_pass(answer, rows, image, sizeof image, 0, 2, journal, sizeof journal, 1, 0x04030201);
}

static void rows_quick_pass_to(void *answer) {
    uint8_t image[100 * 10] = {0xA4, 0, 0, 0, 0, 0, 0, 0, 0, 0, 0xA6};
    uint8_t journal[3 * 30] = {0};
    desk_rows_quick_pass(answer, rows, image, sizeof image, 0, 100, journal, sizeof journal, 1, 0x04030201);
}

static const WideRowCode wide_rows = {
    .columns = {28, 14, 22, 26, 29, 3, 5, 9, 17, 2, 4, 8, 16}, .n = 13, .r = 5, .rows = 30};

static void wide_rows_balance_to(void *answer) { desk_wide_rows_row_balance(answer, wide_rows); }
static void wide_rows_write_to(void *answer) { desk_wide_rows_write(answer, wide_rows, 0xFF, 0); }
static void wide_rows_read_to(void *answer) { desk_wide_rows_read(answer, wide_rows, 0xA4, 0, 0); }
static void wide_rows_refused_read_to(void *answer) { desk_wide_rows_read(answer, wide_rows, 0xA4, 1, 0); }
static void wide_rows_cards_to(void *answer) { desk_wide_rows_cards(answer, wide_rows, 4); }
static void wide_rows_refused_recover_to(void *answer) {
    desk_wide_rows_recover(answer, wide_rows, 0xA6, 0, 0, NULL, 0);
}
static void wide_rows_find_bad_to(void *answer) {
    desk_wide_rows_find_bad(answer, wide_rows, (WideWord){0xA5, 0, 0}, (WideWord){0x5B, 0, 30});
}

static void wide_rows_recover_to(void *answer) {
    const size_t bad[] = {9, 1, 0};
    desk_wide_rows_recover(answer, wide_rows, 0xA6, 0, 2, bad, 3);
}

static void wide_rows_explain_to(void *answer) {
    uint8_t list[144];
    desk_wide_rows_explain(answer, wide_rows, 0xA6, 0, 0, 2, list, sizeof list);
}

static void wide_rows_pass_to(void *answer) {
    uint8_t image[2 * 18] = {[0] = 0xA4, [18] = 0xA6};
    uint8_t journal[3 * 46] = {0};
    desk_wide_rows_pass(answer, wide_rows, image, sizeof image, 0, 2, journal, sizeof journal, 1, 0x04030201);
}

static void wide_rows_quick_pass_to(void *answer) {
    uint8_t image[100 * 18] = {[0] = 0xA4, [18] = 0xA6};
    uint8_t journal[3 * 46] = {0};
    desk_wide_rows_quick_pass(answer, wide_rows, image, sizeof image, 0, 100, journal, sizeof journal, 1, 0x04030201);
}

enum { GUARD = 64, LARGEST = 280 };

/* Whether all bytes of the answer from `from` up to `to` are written, and nothing outside its `size` bytes. */
static int writes_only(void (*call)(void *), size_t from, size_t to, size_t size) {
    uint64_t low[(GUARD + LARGEST + GUARD) / 8], high[(GUARD + LARGEST + GUARD) / 8];
    memset(low, 0x00, sizeof low);
    memset(high, 0xFF, sizeof high);
    uint8_t *low_bytes = (uint8_t *)low, *high_bytes = (uint8_t *)high;
    call(low_bytes + GUARD);
    call(high_bytes + GUARD);
    for (size_t i = 0; i < sizeof low; i++) {
        int is_written = low_bytes[i] == high_bytes[i];
        int is_field = i >= GUARD + from && i < GUARD + to;
        int is_outside = i < GUARD || i >= GUARD + size;
        if ((is_field && !is_written) || (is_outside && is_written)) {
            return 0;
        }
    }
    return 1;
}

/* The fields of a sheet's answer: 17 bytes, and 24 behind a gap of 7. */
static int writes_sheet(void (*call)(void *)) {
    return writes_only(call, 0, 17, 48) && writes_only(call, 24, 48, 48);
}

/* The fields of a wide reading: 34 bytes, and 18 behind a gap of 6. */
static int writes_reading(void (*call)(void *)) {
    return writes_only(call, 0, 34, 64) && writes_only(call, 40, 58, 64);
}

static void answers(void) {
    expect("desk_row_balance writes all 80 bytes of its answer, and no other", writes_only(balance_to, 0, 80, 80));
    expect("desk_write writes 18 bytes of its 24, and no other", writes_only(write_to, 0, 18, 24));
    expect("desk_read writes 44 bytes of its 48, and no other", writes_only(read_to, 0, 44, 48));
    expect("desk_explain writes all 24 bytes of its answer, and no other", writes_only(explain_to, 0, 24, 24));
    expect("desk_cards writes all 32 bytes of its answer, and no other", writes_only(cards_to, 0, 32, 32));
    expect("desk_pass writes 36 bytes of its 40, and no other", writes_only(pass_to, 0, 36, 40));
    expect("desk_quick_pass writes 36 bytes of its 40, and no other", writes_only(quick_pass_to, 0, 36, 40));
    expect("desk_put_back writes all 24 bytes of its answer, and no other", writes_only(put_back_to, 0, 24, 24));
    expect("desk_sheet_ceiling writes its fields, and no other", writes_sheet(ceiling_to));
    expect("desk_sheet_band writes its fields, and no other", writes_sheet(band_to));
    expect("desk_sheet_open writes its fields where it refuses too, and no other", writes_sheet(open_to));
    expect("desk_make writes all 152 bytes of its answer, and no other", writes_only(make_to, 0, 152, 152));
    expect("desk_make writes all of them where it refuses too", writes_only(refused_make_to, 0, 152, 152));
    expect("desk_byte_write writes all 24 bytes of its answer, and no other", writes_only(byte_write_to, 0, 24, 24));
    expect("desk_byte_read writes all 40 bytes of its answer, and no other", writes_only(byte_read_to, 0, 40, 40));
    expect("desk_recover writes 26 bytes of its 32, and no other", writes_only(recover_to, 0, 26, 32));
    expect("desk_recover writes them where it refuses too", writes_only(refused_recover_to, 0, 26, 32));
    expect("desk_find_bad writes 26 bytes of its 32, and no other", writes_only(find_bad_to, 0, 26, 32));
}

static void wide_answers(void) {
    expect("desk_wide_row_balance writes all 80 bytes of its answer, and no other",
           writes_only(wide_balance_to, 0, 80, 80));
    expect("desk_wide_write writes 18 bytes of its 24, and no other", writes_only(wide_write_to, 0, 18, 24));
    expect("desk_wide_read writes its fields, and no other", writes_reading(wide_read_to));
    expect("desk_wide_read writes its fields where it refuses too", writes_reading(wide_refused_read_to));
    expect("desk_wide_explain writes all 24 bytes of its answer, and no other",
           writes_only(wide_explain_to, 0, 24, 24));
    expect("desk_wide_cards writes all 32 bytes of its answer, and no other", writes_only(wide_cards_to, 0, 32, 32));
    expect("desk_wide_pass writes 36 bytes of its 40, and no other", writes_only(wide_pass_to, 0, 36, 40));
    expect("desk_wide_quick_pass writes 36 bytes of its 40, and no other", writes_only(wide_quick_pass_to, 0, 36, 40));
    expect("desk_wide_put_back writes all 24 bytes of its answer, and no other", writes_only(wide_back_to, 0, 24, 24));
    expect("desk_wide_make writes all 280 bytes of its answer, and no other", writes_only(wide_make_to, 0, 280, 280));
    expect("desk_wide_make writes all of them where it refuses too", writes_only(wide_refused_make_to, 0, 280, 280));
    expect("desk_wide_recover writes 34 bytes of its 40, and no other", writes_only(wide_recover_to, 0, 34, 40));
    expect("desk_wide_recover writes them where it refuses too", writes_only(wide_refused_recover_to, 0, 34, 40));
    expect("desk_wide_find_bad writes 34 bytes of its 40, and no other", writes_only(wide_find_bad_to, 0, 34, 40));
}

static void row_answers(void) {
    expect("desk_rows_row_balance writes all 80 bytes of its answer, and no other",
           writes_only(rows_balance_to, 0, 80, 80));
    expect("desk_rows_write writes 18 bytes of its 24, and no other", writes_only(rows_write_to, 0, 18, 24));
    expect("desk_rows_read writes 44 bytes of its 48, and no other", writes_only(rows_read_to, 0, 44, 48));
    expect("desk_rows_read writes them where it refuses too", writes_only(rows_refused_read_to, 0, 44, 48));
    expect("desk_rows_explain writes all 24 bytes of its answer, and no other",
           writes_only(rows_explain_to, 0, 24, 24));
    expect("desk_rows_cards writes all 32 bytes of its answer, and no other", writes_only(rows_cards_to, 0, 32, 32));
    expect("desk_rows_pass writes 36 bytes of its 40, and no other", writes_only(rows_pass_to, 0, 36, 40));
    expect("desk_rows_quick_pass writes 36 bytes of its 40, and no other", writes_only(rows_quick_pass_to, 0, 36, 40));
    expect("desk_rows_recover writes 26 bytes of its 32, and no other", writes_only(rows_recover_to, 0, 26, 32));
    expect("desk_rows_recover writes them where it refuses too", writes_only(rows_refused_recover_to, 0, 26, 32));
    expect("desk_rows_find_bad writes 26 bytes of its 32, and no other", writes_only(rows_find_bad_to, 0, 26, 32));
}

static void wide_row_answers(void) {
    expect("desk_wide_rows_row_balance writes all 80 bytes of its answer, and no other",
           writes_only(wide_rows_balance_to, 0, 80, 80));
    expect("desk_wide_rows_write writes 18 bytes of its 24, and no other", writes_only(wide_rows_write_to, 0, 18, 24));
    expect("desk_wide_rows_read writes its fields, and no other", writes_reading(wide_rows_read_to));
    expect("desk_wide_rows_read writes its fields where it refuses too", writes_reading(wide_rows_refused_read_to));
    expect("desk_wide_rows_explain writes all 24 bytes of its answer, and no other",
           writes_only(wide_rows_explain_to, 0, 24, 24));
    expect("desk_wide_rows_cards writes all 32 bytes of its answer, and no other",
           writes_only(wide_rows_cards_to, 0, 32, 32));
    expect("desk_wide_rows_pass writes 36 bytes of its 40, and no other", writes_only(wide_rows_pass_to, 0, 36, 40));
    expect("desk_wide_rows_quick_pass writes 36 bytes of its 40, and no other",
           writes_only(wide_rows_quick_pass_to, 0, 36, 40));
    expect("desk_wide_rows_recover writes 34 bytes of its 40, and no other",
           writes_only(wide_rows_recover_to, 0, 34, 40));
    expect("desk_wide_rows_recover writes them where it refuses too",
           writes_only(wide_rows_refused_recover_to, 0, 34, 40));
    expect("desk_wide_rows_find_bad writes 34 bytes of its 40, and no other",
           writes_only(wide_rows_find_bad_to, 0, 34, 40));
}

int main(void) {
    answers();
    wide_answers();
    row_answers();
    wide_row_answers();
    return finish();
}
