/* What the archive does, seen from C: every field of every answer, and the lent bytes that it must leave. */
#include "cases.h"
#include "codes.h"

#include <float.h>
#include <math.h>

/* 17 columns with 16 check bits: no two rows have the same balance. */
static DeskCode sixteen_rows(void) {
    static const uint16_t columns[] = {0xAF08, 0xD0C0, 0xDE02, 0xE868, 0xEB04, 0xEE10, 0xF680, 0xF6A8, 0xF970,
                                       0xFA80, 0xFB60, 0xFBC0, 0xFC80, 0xFC8C, 0xFD88, 0xFF40, 0xFFC4};
    return code_of(columns, 17, 16);
}

/* The sample with the column at place 5 equal to that at place 4: refused by 6, told 5. */
static DeskCode repeated(void) {
    DeskCode code = sample();
    code.columns[5] = code.columns[4];
    return code;
}

/* A record of each verdict as often as its number and one more: the tally is 1, 2, 3, 4, 5, 6. */
static void put_every_verdict(uint8_t image[21 * DESK_RECORD]) {
    static const uint64_t data[] = {0xA5, 0xA4, 0xA5, 0xA6, 0xA6, 0x100};
    static const uint16_t check[] = {27, 27, 26, 27, 26, 0};
    size_t at = 0;
    for (size_t verdict = 0; verdict < 6; verdict++) {
        for (size_t times = 0; times <= verdict; times++) {
            put_record(image + DESK_RECORD * at++, data[verdict], check[verdict]);
        }
    }
}

static int same_read(DeskReadWord a, size_t number, size_t told, size_t verdict, size_t place, uint64_t data,
                     uint16_t check, uint16_t syndrome) {
    return a.number == number && a.told == told && a.verdict == verdict && a.place == place && a.data == data &&
           a.check == check && a.syndrome == syndrome;
}

static int same_rows(DeskRowBalance a, size_t number, size_t told, const int32_t rows[DESK_ROWS]) {
    return a.number == number && a.told == told && memcmp(a.rows, rows, sizeof a.rows) == 0;
}

static int same_tally(DeskTally t, size_t clean, size_t data, size_t check, size_t even, size_t odd, size_t stray) {
    return t.clean == clean && t.data == data && t.check == check && t.even == even && t.odd == odd && t.stray == stray;
}

static void version(void) {
    expect("desk_version: that of desk.h", desk_version() == DESK_VERSION);
}

static void code_fields(void) {
    static const int32_t rows[DESK_ROWS] = {-135, -119, -87, -55, -103, -71, -23, 9, -7, 41, 25, 89, 73, 105, 121, 137};
    DeskCheckBits bits = desk_check_bits(64);
    expect("desk_check_bits: every field", bits.number == 0 && bits.bits == 8);
    DeskJudgement told = desk_judge(repeated());
    expect("desk_judge: every field", told.number == 6 && told.told == 5);
    expect("desk_row_balance: every row", same_rows(desk_row_balance(sixteen_rows()), 0, 0, rows));
    static const int32_t zeros[DESK_ROWS];
    expect("desk_row_balance: refused", same_rows(desk_row_balance(repeated()), 6, 5, zeros));
}

static void word_fields(void) {
    const uint64_t data = 0x8877665544332211;
    DeskCheckWord written = desk_write(sample(), 0xFF);
    expect("desk_write: every field", written.number == 0 && written.told == 0 && written.check == 12);
    written = desk_write(repeated(), 0xFF);
    expect("desk_write: refused", written.number == 6 && written.told == 5 && written.check == 0);
    expect("desk_read: every field", same_read(desk_read(sample(), 0xA6, 25), 0, 0, 2, 10, 0xA6, 29, 4));
    expect("desk_read: refused", same_read(desk_read(repeated(), 0xA6, 25), 6, 5, 0, 0, 0, 0, 0));
    uint16_t check = desk_write(full(8), data).check;
    expect("desk_read: all 64 data bits",
           same_read(desk_read(full(8), data ^ (uint64_t)1 << 63, check), 0, 0, 1, 63, data, check,
                     full(8).columns[63]));
}

/* The syndrome with each verdict, and on a refusal. */
static void syndromes(void) {
    static const uint16_t wide[] = {0xFFFE};
    DeskCode sixteen = code_of(wide, 1, 16);
    expect("desk_read: a clean syndrome is 0", same_read(desk_read(sample(), 0xA5, 27), 0, 0, 0, 255, 0xA5, 27, 0));
    expect("desk_read: a data bit's is its column", same_read(desk_read(sample(), 0xA4, 27), 0, 0, 1, 0, 0xA5, 27, 28));
    expect("desk_read: a check bit's has one bit", same_read(desk_read(sample(), 0xA5, 26), 0, 0, 2, 8, 0xA5, 27, 1));
    expect("desk_read: an even one", same_read(desk_read(sample(), 0xA6, 27), 0, 0, 3, 255, 0xA6, 27, 6));
    expect("desk_read: an odd one", same_read(desk_read(sample(), 0xA6, 26), 0, 0, 4, 255, 0xA6, 26, 7));
    expect("desk_read: all 16 bits of it",
           same_read(desk_read(sixteen, 1, 0), 0, 0, 1, 0, 0, 0, 0xFFFE) &&
               same_read(desk_read(sixteen, 1, 0x4000), 0, 0, 3, 255, 1, 0x4000, 0xBFFE));
    expect("desk_read: 0 where the word is stray",
           same_read(desk_read(sample(), 0x1A4, 27), 7, 0, 0, 0, 0, 0, 0) &&
               same_read(desk_read(sample(), 0xA5, 59), 7, 0, 0, 0, 0, 0, 0));
}

static void list_and_card_fields(void) {
    uint8_t list[DESK_LONGEST_LIST];
    DeskListing listing = desk_explain(sample(), 0xA6, 27, 2, list, sizeof list);
    expect("desk_explain: every field", listing.number == 0 && listing.told == 0 && listing.length == 5);
    listing = desk_explain(sample(), 0xA6, 27, 2, NULL, 0);
    expect("desk_explain: refused", listing.number == 10 && listing.told == 5 && listing.length == 0);
    DeskCardCheck cards = desk_cards(sample(), 3);
    expect("desk_cards: every field", cards.number == 9 && cards.told == 0 && cards.card == 1 && cards.mask == 7);
    cards = desk_cards(repeated(), 3);
    expect("desk_cards: refused", cards.number == 6 && cards.told == 5 && cards.card == 0 && cards.mask == 0);
}

/*
 * Every place in a pair whose columns differ by 3: check bits 0 and 1; each further check bit with a data column; and
 * data columns with each other. So a word of syndrome 3 has 40 explanations, and no list is longer.
 */
static DeskCode paired(void) {
    DeskCode code = {.r = 16};
    for (unsigned j = 2; j < 16; j++) {
        code.columns[code.k++] = (uint16_t)(1u << j ^ 3);
    }
    for (unsigned column = 4; code.k < DESK_COLUMNS; column += 4) {
        if (__builtin_popcount(column) == 3) {
            code.columns[code.k++] = (uint16_t)column;
            code.columns[code.k++] = (uint16_t)(column ^ 3);
        }
    }
    return code;
}

static void longest_list(void) {
    uint8_t list[DESK_LONGEST_LIST];
    DeskListing a = desk_explain(paired(), 0, 3, 2, list, sizeof list - 1);
    expect("desk_explain: the longest list, a byte short", a.number == DESK_LIST_ROOM && a.told == 40);
    a = desk_explain(paired(), 0, 3, 2, list, sizeof list);
    expect("desk_explain: the longest list has 40 entries", a.number == DESK_DONE && a.length == 40);
}

static void longest_image(void) {
    static uint8_t image[DESK_IMAGE + DESK_RECORD];
    DeskPassAnswer a = desk_pass(sample(), image, DESK_IMAGE, 0, DESK_IMAGE / DESK_RECORD, NULL, 0, 0, 0);
    expect("desk_pass: the longest image", a.number == DESK_DONE && same_tally(a.tally, 6553, 0, 0, 0, 0, 0));
    a = desk_quick_pass(sample(), image, DESK_IMAGE, 0, DESK_IMAGE / DESK_RECORD, NULL, 0, 0, 0);
    expect("desk_quick_pass: the longest image", a.number == DESK_DONE && same_tally(a.tally, 6553, 0, 0, 0, 0, 0));
    a = desk_pass(sample(), image, DESK_IMAGE + DESK_RECORD, 0, 1, NULL, 0, 0, 0);
    expect("desk_pass: a record more is refused", a.number == DESK_IMAGE_LENGTH);
}

static void pass_fields(void) {
    uint8_t image[21 * DESK_RECORD], journal[20 * DESK_ENTRY + 7];
    put_every_verdict(image);
    DeskPassAnswer a = desk_pass(sample(), image, sizeof image, 0, 21, NULL, 0, 0, 0);
    expect("desk_pass: refused",
           a.number == 13 && a.told == 20 && a.used == 0 && same_tally(a.tally, 0, 0, 0, 0, 0, 0));
    memset(journal, 0xEE, sizeof journal);
    a = desk_pass(sample(), image, sizeof image, 0, 21, journal, sizeof journal, 0, 0x04030201);
    expect("desk_pass: every field",
           a.number == 0 && a.told == 0 && a.used == 20 && same_tally(a.tally, 1, 2, 3, 4, 5, 6));
    expect("desk_pass: the journal past its entries stays", is_filled(journal + 20 * DESK_ENTRY, 7, 0xEE));
    static const uint8_t stray[] = {1, 2, 3, 4, 20, 0, DESK_STRAY, DESK_NO_PLACE, 0, 0, 0, 1};
    expect("desk_pass: the last entry", memcmp(journal + 19 * DESK_ENTRY, stray, sizeof stray) == 0);
    static const uint8_t mended[] = {1, 2, 3, 4, 1, 0, DESK_DATA, 0, 28, 0, 0xA4};
    expect("desk_pass: the first has the syndrome as read", memcmp(journal, mended, sizeof mended) == 0);
    a = desk_pass(sample(), image, sizeof image, 0, 21, journal, sizeof journal, 0, 0);
    expect("desk_pass: what was mended is clean",
           a.number == 0 && a.used == 15 && same_tally(a.tally, 6, 0, 0, 4, 5, 6));
}

/* Two passes in one journal, by the count that the first hands back; guards stand about image and journal. */
static void passes_in_one_journal(void) {
    enum { GUARD = 64, IMAGE = 21 * DESK_RECORD, JOURNAL = 21 * DESK_ENTRY + 5 };
    uint8_t lent[GUARD + IMAGE + GUARD + JOURNAL + GUARD], before[JOURNAL];
    uint8_t *image = lent + GUARD, *journal = image + IMAGE + GUARD;
    memset(lent, 0xEE, sizeof lent);
    put_every_verdict(image);
    DeskPassAnswer a = desk_pass(sample(), image, IMAGE, 0, 10, journal, JOURNAL, 0, 7);
    expect("desk_pass: the first of two", a.number == 0 && a.used == 9 && same_tally(a.tally, 1, 2, 3, 4, 0, 0));
    memcpy(before, journal, JOURNAL);
    DeskPassAnswer b = desk_pass(sample(), image, IMAGE, 10, 21, journal, JOURNAL, a.used, UINT32_MAX);
    expect("desk_pass: the second of two", b.number == 0 && b.used == 20 && same_tally(b.tally, 0, 0, 0, 0, 5, 6));
    expect("desk_pass: the entries in use stay", memcmp(journal, before, 9 * DESK_ENTRY) == 0);
    static const uint8_t head[] = {255, 255, 255, 255, 10, 0, DESK_ODD, DESK_NO_PLACE, 7, 0, 0xA6};
    expect("desk_pass: the next stand right behind them", memcmp(journal + 9 * DESK_ENTRY, head, sizeof head) == 0);
    expect("desk_pass: bytes past them stay", is_filled(journal + 20 * DESK_ENTRY, DESK_ENTRY + 5, 0xEE));
    expect("desk_pass: the guards stay",
           is_filled(lent, GUARD, 0xEE) && is_filled(image + IMAGE, GUARD, 0xEE) &&
               is_filled(journal + JOURNAL, GUARD, 0xEE));
}

static int same_back(DeskPutBack a, size_t number, size_t count) {
    return a.number == number && a.told == 0 && a.count == count;
}

/*
 * Two entries in use: record 0 was read as A4 with 27 and record 1 as A5 with 26, both were left as A5 with 27. Their
 * stamps, verdicts, places and syndromes are no pass's. The memory is such that it can only be read.
 */
static const uint8_t two_entries[2 * DESK_ENTRY] = {
    9, 9, 9, 9, 0, 0, 99, 77, 88, 66, 0xA4, 0, 0, 0, 0, 0, 0, 0, 27, 0, 0xA5, 0, 0, 0, 0, 0, 0, 0, 27, 0,
    8, 8, 8, 8, 1, 0, 0, 0, 255, 255, 0xA5, 0, 0, 0, 0, 0, 0, 0, 26, 0, 0xA5, 0, 0, 0, 0, 0, 0, 0, 27, 0};

/*
 * Whether a put-back of these two entries over an image of two records, with guards about it, answers this and leaves
 * these data and check bits.
 */
static int puts_back(const uint64_t data[2], const uint16_t check[2], size_t number, size_t count,
                     const uint64_t left[2], const uint16_t left_check[2]) {
    enum { GUARD = 64, IMAGE = 2 * DESK_RECORD };
    uint8_t lent[GUARD + IMAGE + GUARD], expected[GUARD + IMAGE + GUARD];
    memset(lent, 0xEE, sizeof lent);
    memset(expected, 0xEE, sizeof expected);
    for (size_t i = 0; i < 2; i++) {
        put_record(lent + GUARD + DESK_RECORD * i, data[i], check[i]);
        put_record(expected + GUARD + DESK_RECORD * i, left[i], left_check[i]);
    }
    DeskPutBack a = desk_put_back(lent + GUARD, IMAGE, two_entries, sizeof two_entries, 2);
    return same_back(a, number, count) && memcmp(lent, expected, sizeof lent) == 0;
}

static void back_fields(void) {
    static const uint64_t sound[] = {0xA5, 0xA5}, read[] = {0xA4, 0xA5};
    static const uint16_t clean[] = {27, 27}, read_check[] = {27, 26};
    expect("desk_put_back: every field, and the journal is only read",
           puts_back(sound, clean, DESK_DONE, 2, read, read_check));
    static const uint64_t other[] = {0xA7, 0xA5};
    expect("desk_put_back: 18, and the entry already put back stays",
           puts_back(other, clean, DESK_MISMATCH, 1, other, read_check));
    static const uint64_t spoilt[] = {0xA5, 0xA7};
    expect("desk_put_back: 18 at the last entry, and the first is not reached",
           puts_back(spoilt, clean, DESK_MISMATCH, 0, spoilt, clean));
    expect("desk_put_back: the bytes as read do not match",
           puts_back(read, read_check, DESK_MISMATCH, 0, read, read_check));
    uint8_t image[DESK_RECORD];
    put_record(image, 0xA5, 27);
    expect("desk_put_back: 18 for a record outside the image",
           same_back(desk_put_back(image, sizeof image, two_entries, sizeof two_entries, 2), DESK_MISMATCH, 0) &&
               image[0] == 0xA5);
    expect("desk_put_back: entries past those in use are not looked at",
           same_back(desk_put_back(image, sizeof image, two_entries, sizeof two_entries, 1), DESK_DONE, 1) &&
               image[0] == 0xA4);
    expect("desk_put_back: none in use, and no buffer at all",
           same_back(desk_put_back(NULL, 0, NULL, 0, 0), DESK_DONE, 0));
}

/* Whether a put-back is refused by this number with the image as it was. */
static int back_stays(size_t length, size_t room, size_t used, size_t number) {
    static uint8_t image[DESK_IMAGE + DESK_RECORD];
    memset(image, 0xEE, sizeof image);
    DeskPutBack a = desk_put_back(image, length, two_entries, room, used);
    return same_back(a, number, 0) && is_filled(image, sizeof image, 0xEE);
}

static void back_refusals(void) {
    expect("desk_put_back: refused by 12",
           back_stays(19, 60, 2, DESK_IMAGE_LENGTH) && back_stays(21, 60, 0, DESK_IMAGE_LENGTH) &&
               back_stays(DESK_IMAGE + DESK_RECORD, 60, 2, DESK_IMAGE_LENGTH));
    expect("desk_put_back: 12 before 17", back_stays(19, 60, SIZE_MAX, DESK_IMAGE_LENGTH));
    expect("desk_put_back: refused by 17",
           back_stays(20, 60, 3, DESK_COUNT_IN_USE) && back_stays(20, 59, 2, DESK_COUNT_IN_USE) &&
               back_stays(0, 0, 1, DESK_COUNT_IN_USE));
    expect("desk_put_back: a count that no journal has",
           back_stays(20, 60, SIZE_MAX, DESK_COUNT_IN_USE) &&
               back_stays(20, 60, (size_t)1 << 32, DESK_COUNT_IN_USE));
    expect("desk_put_back: the longest image is judged", back_stays(DESK_IMAGE, 60, 2, DESK_MISMATCH));
}

/* Three passes under two codes over runs that overlap, put back; and passed again. */
static void back_after_passes(void) {
    static const uint16_t others[] = {13, 14, 19, 21, 22, 25, 26, 28};
    const DeskCode codes[] = {sample(), code_of(others, 8, 5), sample()};
    enum { IMAGE = 21 * DESK_RECORD, JOURNAL = 63 * DESK_ENTRY };
    uint8_t image[IMAGE], first[IMAGE], mended[IMAGE], journal[JOURNAL], noted[JOURNAL];
    put_every_verdict(image);
    memcpy(first, image, IMAGE);
    memset(journal, 0xEE, JOURNAL);
    size_t used = 0;
    for (size_t i = 0; i < 3; i++) {
        used = desk_pass(codes[i], image, IMAGE, 5 * i, 11 + 5 * i, journal, JOURNAL, used, (uint32_t)i).used;
    }
    memcpy(mended, image, IMAGE);
    memcpy(noted, journal, JOURNAL);
    expect("desk_put_back: passes leave another image", used > 20 && memcmp(image, first, IMAGE) != 0);
    DeskPutBack a = desk_put_back(image, IMAGE, journal, JOURNAL, used);
    expect("desk_put_back: the image before the first pass",
           same_back(a, DESK_DONE, used) && memcmp(image, first, IMAGE) == 0);
    expect("desk_put_back: the journal stays", memcmp(journal, noted, JOURNAL) == 0);
    size_t again = 0;
    for (size_t i = 0; i < 3; i++) {
        again = desk_pass(codes[i], image, IMAGE, 5 * i, 11 + 5 * i, journal, JOURNAL, again, (uint32_t)i).used;
    }
    expect("desk_put_back: passed again, the same image and entries",
           again == used && memcmp(image, mended, IMAGE) == 0 && memcmp(journal, noted, JOURNAL) == 0);
}

/* Whether a list is refused by this number with the buffer as it was. */
static int list_stays(DeskCode code, uint64_t data, size_t limit, size_t room, size_t number) {
    uint8_t list[DESK_LONGEST_LIST];
    memset(list, 0xEE, sizeof list);
    DeskListing a = desk_explain(code, data, 27, limit, list, room);
    return a.number == number && a.length == 0 && is_filled(list, sizeof list, 0xEE);
}

/*
 * Whether a pass with so many entries in use, each with the stamp EEEEEEEE, is refused by this number with image and
 * journal as they were.
 */
static int stays(DeskCode code, size_t length, size_t end, size_t room, size_t used, uint32_t stamp, size_t number) {
    uint8_t image[21 * DESK_RECORD], before[21 * DESK_RECORD], journal[21 * DESK_ENTRY];
    put_every_verdict(image);
    put_every_verdict(before);
    memset(journal, 0xEE, sizeof journal);
    DeskPassAnswer a = desk_pass(code, image, length, 0, end, journal, room, used, stamp);
    return a.number == number && a.used == 0 && same_tally(a.tally, 0, 0, 0, 0, 0, 0) &&
           memcmp(image, before, sizeof image) == 0 && is_filled(journal, sizeof journal, 0xEE);
}

/* The same with an ample journal of which no entry is in use. */
static int image_stays(DeskCode code, size_t length, size_t end, size_t number) {
    return stays(code, length, end, 20 * DESK_ENTRY, 0, 0, number);
}

/* The sample with k, r and the last column set; each of 1 to 6 is refused by its number. */
static DeskCode refused_by(size_t number) {
    DeskCode code = sample();
    switch (number) {
    case 1: code.k = 0; break;
    case 2: code.r = 2; break;
    case 3: code.columns[7] = 32; break;
    case 4: code.columns[7] = 12; break;
    case 5: code.columns[7] = 16; break;
    case 6: code.columns[7] = 28; break;
    }
    return code;
}

static void refusals_leave_buffers(void) {
    char name[96];
    for (size_t number = 1; number <= 6; number++) {
        snprintf(name, sizeof name, "refused by %zu: the list stays", number);
        expect(name, list_stays(refused_by(number), 0xA6, 2, 80, number));
        snprintf(name, sizeof name, "refused by %zu: image and journal stay", number);
        expect(name, image_stays(refused_by(number), 210, 21, number));
    }
    expect("refused by 7: the list stays", list_stays(sample(), 0x100, 2, 80, DESK_STRAY_BITS));
    expect("refused by 10: the list stays", list_stays(sample(), 0xA6, 2, 9, DESK_LIST_ROOM));
    expect("refused by 11: the list stays", list_stays(sample(), 0xA6, 3, 80, DESK_FLIP_LIMIT));
    expect("refused by 12: image and journal stay", image_stays(sample(), 209, 20, DESK_IMAGE_LENGTH));
    expect("refused by 14: image and journal stay", image_stays(sample(), 210, 22, DESK_RUN));
    expect("refused by 13: image and journal stay", stays(sample(), 210, 21, 599, 0, 0, DESK_JOURNAL_ROOM));
    expect("refused by 13: a used entry is no room", stays(sample(), 210, 21, 629, 1, 0xEEEEEEEE, DESK_JOURNAL_ROOM));
    expect("refused by 16: image and journal stay", stays(sample(), 210, 21, 630, 1, 0xEEEEEEED, DESK_STAMP));
    expect("refused by 16: where no entry is written, too", stays(sample(), 210, 0, 630, 21, 0, DESK_STAMP));
    expect("refused by 17: image and journal stay", stays(sample(), 210, 21, 630, 22, UINT32_MAX, DESK_COUNT_IN_USE));
    expect("refused by 17: a count that no journal has",
           stays(sample(), 210, 0, 630, SIZE_MAX, UINT32_MAX, DESK_COUNT_IN_USE) &&
               stays(sample(), 210, 0, 630, (size_t)1 << 32, UINT32_MAX, DESK_COUNT_IN_USE));
}

/* Whether a sheet is this one, bit by bit: the sign of a zero counts. */
static int same_sheet(DeskSheetAnswer a, size_t number, bool yes, double device, double station, double share) {
    const double figures[] = {device, station, share};
    return a.number == number && a.told == 0 && a.yes == yes && memcmp(&a.sheet, figures, sizeof figures) == 0;
}

/* Whether every question that has this figure for its hours, or for a limit's, is refused. */
static int refuses_figure(double figure, int for_hours, int for_limit) {
    int refused = 1;
    if (for_hours) {
        refused &= same_sheet(desk_sheet_ceiling(figure, 2, 4, 3, 1), DESK_SHEET, false, 0, 0, 0);
        refused &= same_sheet(desk_sheet_band(figure, 2, 4, 3, 0, 1), DESK_SHEET, false, 0, 0, 0);
        refused &= same_sheet(desk_sheet_open(figure, 2, 4, 3), DESK_SHEET, false, 0, 0, 0);
    }
    if (for_limit) {
        refused &= same_sheet(desk_sheet_ceiling(6, 2, 4, 3, figure), DESK_SHEET, false, 0, 0, 0);
        refused &= same_sheet(desk_sheet_band(6, 2, 4, 3, figure, 1), DESK_SHEET, false, 0, 0, 0);
        refused &= same_sheet(desk_sheet_band(6, 2, 4, 3, 0, figure), DESK_SHEET, false, 0, 0, 0);
    }
    return refused;
}

static void sheet_fields(void) {
    expect("desk_sheet_open: every field", same_sheet(desk_sheet_open(6, 4, 8, 1), 0, true, 6, 1.5, 0.125));
    expect("desk_sheet_ceiling: its end is inside",
           same_sheet(desk_sheet_ceiling(6, 4, 8, 1, 0.125), 0, true, 6, 1.5, 0.125));
    expect("desk_sheet_ceiling: no", same_sheet(desk_sheet_ceiling(6, 4, 8, 1, 0.1), 0, false, 6, 1.5, 0.125));
    expect("desk_sheet_band: its ends are inside",
           same_sheet(desk_sheet_band(6, 4, 8, 1, 0.125, 0.125), 0, true, 6, 1.5, 0.125));
    expect("desk_sheet_band: no, below", same_sheet(desk_sheet_band(6, 4, 8, 1, 0.2, 0.3), 0, false, 6, 1.5, 0.125));
    expect("desk_sheet_band: no, above", same_sheet(desk_sheet_band(6, 4, 8, 1, 0, 0.1), 0, false, 6, 1.5, 0.125));
    expect("desk_sheet_open: rounded once", desk_sheet_open(1, 1, 3, 1).sheet.share == 1.0 / 3.0);
    expect("desk_sheet_open: the smallest hours over two devices are 0",
           same_sheet(desk_sheet_open(DBL_TRUE_MIN, 2, 1, 1), 0, true, DBL_TRUE_MIN, 0, 1));
    expect("desk_sheet_ceiling: minus zero is a figure",
           same_sheet(desk_sheet_ceiling(6, 4, 8, 0, -0.0), 0, true, 6, 1.5, 0));
}

static void sheet_refusals(void) {
    expect("refused by 19: an infinity", refuses_figure(INFINITY, 1, 1) && refuses_figure(-INFINITY, 1, 1));
    expect("refused by 19: a NaN", refuses_figure(NAN, 1, 1) && refuses_figure(-NAN, 1, 1));
    expect("refused by 19: below zero", refuses_figure(-1, 1, 1) && refuses_figure(-DBL_TRUE_MIN, 1, 1));
    expect("refused by 19: hours of zero", refuses_figure(0, 1, 0) && refuses_figure(-0.0, 1, 0));
    static const size_t counts[] = {0, 65536, 65537, (size_t)1 << 32, SIZE_MAX};
    int refused = 1;
    for (size_t i = 0; i < sizeof counts / sizeof counts[0]; i++) {
        refused &= same_sheet(desk_sheet_open(6, counts[i], 8, 1), DESK_SHEET, false, 0, 0, 0);
        refused &= same_sheet(desk_sheet_open(6, 4, counts[i], 0), DESK_SHEET, false, 0, 0, 0);
    }
    expect("refused by 19: counts", refused);
    expect("refused by 19: mended above words", same_sheet(desk_sheet_open(6, 4, 8, 9), DESK_SHEET, false, 0, 0, 0));
    expect("refused by 19: a band upside down",
           same_sheet(desk_sheet_band(6, 4, 8, 1, 0.2, 0.1), DESK_SHEET, false, 0, 0, 0));
    expect("done: 65,535 devices and words",
           same_sheet(desk_sheet_open(65535, 65535, 65535, 65535), 0, true, 65535, 1, 1));
}

/* Whether this number is answered, with a code of nothing but zeros. */
static int makes_nothing(DeskMade a, size_t number) {
    static const uint16_t zeros[DESK_COLUMNS];
    return a.number == number && a.code.k == 0 && a.code.r == 0 &&
           memcmp(a.code.columns, zeros, sizeof zeros) == 0;
}

static void made_fields(void) {
    static const uint16_t columns[DESK_COLUMNS] = {7, 11, 13, 14, 19, 21, 22, 25, 26, 28, 31};
    DeskMade a = desk_make(11, 5);
    expect("desk_make: every field",
           a.number == 0 && a.code.k == 11 && a.code.r == 5 && memcmp(a.code.columns, columns, sizeof columns) == 0);
    a = desk_make(64, 16);
    expect("desk_make: the largest", a.number == 0 && a.code.k == 64 && a.code.r == 16 && a.code.columns[0] == 7 &&
                                         a.code.columns[63] == 274 && desk_judge(a.code).number == 0);
    expect("desk_make: refused by 1",
           makes_nothing(desk_make(0, 5), DESK_DATA_BITS) && makes_nothing(desk_make(65, 2), DESK_DATA_BITS) &&
               makes_nothing(desk_make(SIZE_MAX, SIZE_MAX), DESK_DATA_BITS));
    expect("desk_make: refused by 2",
           makes_nothing(desk_make(64, 2), DESK_CHECK_BITS) && makes_nothing(desk_make(1, 17), DESK_CHECK_BITS) &&
               makes_nothing(desk_make(1, SIZE_MAX), DESK_CHECK_BITS));
    expect("desk_make: refused by 15",
           makes_nothing(desk_make(12, 5), DESK_COLUMN_ROOM) && makes_nothing(desk_make(64, 3), DESK_COLUMN_ROOM));
}

static int same_bytes(DeskByteReading a, size_t number, size_t verdict, size_t byte, uint64_t word) {
    return a.number == number && a.told == 0 && a.verdict == verdict && a.byte.number == byte && a.word == word;
}

static int same_written(DeskByteWriting a, size_t number, uint64_t word) {
    return a.number == number && a.told == 0 && a.word == word;
}

/* The word written for 8, a single one in data byte 1, with the bits of a pattern flipped in one byte. */
static uint64_t spoilt(uint64_t pattern, size_t byte) {
    return 572522504 ^ pattern << 3 * byte;
}

static void byte_fields(void) {
    expect("desk_byte_write: every field", same_written(desk_byte_write(8), DESK_DONE, 572522504));
    expect("desk_byte_write: the seventh data byte", same_written(desk_byte_write(262144), DESK_DONE, 1025769472));
    expect("desk_byte_write: all data bits", same_written(desk_byte_write(2097151), DESK_DONE, 16777215));
    expect("desk_byte_read: clean",
           same_bytes(desk_byte_read(572522504), DESK_DONE, DESK_BYTE_CLEAN, DESK_NO_BYTE, 572522504));
    int found = 1, flagged = 1;
    for (size_t t = 0; t < 10; t++) {
        size_t verdict = t < 7 ? DESK_BYTE_DATA : DESK_BYTE_CHECK;
        for (uint64_t pattern = 1; pattern < 8; pattern++) {
            found &= same_bytes(desk_byte_read(spoilt(pattern, t)), DESK_DONE, verdict, t, 572522504);
            for (size_t s = 0; s < t; s++) {
                uint64_t twice = spoilt(pattern, t) ^ (uint64_t)5 << 3 * s;
                flagged &= same_bytes(desk_byte_read(twice), DESK_DONE, DESK_BYTE_FLAGGED, DESK_NO_BYTE, twice);
            }
        }
    }
    expect("desk_byte_read: every pattern in every byte is put right", found);
    expect("desk_byte_read: a second byte wrong, and it is flagged and left", flagged);
}

static void byte_refusals(void) {
    int refused = 1;
    for (size_t bit = 21; bit < 64; bit++) {
        refused &= same_written(desk_byte_write(8 | (uint64_t)1 << bit), DESK_STRAY_BITS, 0);
    }
    expect("refused by 7: a data bit at 21 or above", refused);
    for (size_t bit = 30; bit < 64; bit++) {
        refused &= same_bytes(desk_byte_read(8 | (uint64_t)1 << bit), DESK_STRAY_BITS, 0, 0, 0);
    }
    expect("refused by 7: a bit at 30 or above, with byte number 0", refused);
}

static int same_word(DeskRecovered a, size_t number, size_t told, uint64_t data, uint16_t check) {
    return a.number == number && a.told == told && a.data == data && a.check == check;
}

static int same_places(DeskBadPlaces a, size_t number, size_t told, uint64_t data, uint16_t check) {
    return a.number == number && a.told == told && a.data == data && a.check == check;
}

/* A6 with 27 is A5 with 27 flipped at places 0 and 1; A6 with 25 also at place 9. */
static void bad_fields(void) {
    static const size_t bad[] = {9, 1, 0}, sound[] = {3, 7, 12};
    const uint64_t data = 0x8877665544332211;
    const size_t ends[] = {71, 63, 0};
    expect("desk_recover: three bad places", same_word(desk_recover(sample(), 0xA6, 25, bad, 3), 0, 0, 0xA5, 27));
    expect("desk_recover: two", same_word(desk_recover(sample(), 0xA6, 27, bad + 1, 2), 0, 0, 0xA5, 27));
    expect("desk_recover: one, and a flip beside it",
           same_word(desk_recover(sample(), 0xA6, 27, bad + 2, 1), 0, 0, 0xA5, 27));
    expect("desk_recover: none, and no pointer", same_word(desk_recover(sample(), 0xA6, 25, NULL, 0), 0, 0, 0xA6, 29));
    expect("desk_recover: none of them is wrong",
           same_word(desk_recover(sample(), 0xA5, 27, sound, 3), 0, 0, 0xA5, 27));
    uint16_t check = desk_write(full(8), data).check;
    expect("desk_recover: the first, the last data and the last check place",
           same_word(desk_recover(full(8), data ^ (uint64_t)1 << 63 ^ 1, check ^ 0x80, ends, 3), 0, 0, data, check));
    expect("desk_find_bad: every field", same_places(desk_find_bad(sample(), 0xA5, 27, 0x5B, 5), 0, 0, 1, 1));
    expect("desk_find_bad: no place", same_places(desk_find_bad(sample(), 0xA5, 27, 0x5A, 4), 0, 0, 0, 0));
    expect("desk_find_bad: every place below n, and none above",
           same_places(desk_find_bad(sample(), 1, 2, 1, 2), 0, 0, 0xFF, 31) &&
               same_places(desk_find_bad(full(8), 1, 2, 1, 2), 0, 0, UINT64_MAX, 0xFF));
}

static void bad_refusals(void) {
    static const size_t four[] = {0, 1, 2, 3}, again[] = {0, 1, 0}, outside[] = {13}, far[] = {0, SIZE_MAX}, two[] = {0, 2};
    expect("refused by 22: four bad places", same_word(desk_recover(sample(), 0xA5, 27, four, 4), 22, 0, 0, 0));
    expect("refused by 22: a repeat", same_word(desk_recover(sample(), 0xA5, 27, again, 3), 22, 0, 0, 0));
    expect("refused by 22: a place at n or above",
           same_word(desk_recover(sample(), 0xA5, 27, outside, 1), 22, 0, 0, 0) &&
               same_word(desk_recover(sample(), 0xA5, 27, far, 2), 22, 0, 0, 0));
    expect("refused by 23: two flips, and none bad", same_word(desk_recover(sample(), 0xA6, 27, NULL, 0), 23, 0, 0, 0));
    expect("refused by 23: a flip beside two bad places",
           same_word(desk_recover(sample(), 0xA6, 27, two, 2), 23, 0, 0, 0));
    expect("refused by 7 before 22", same_word(desk_recover(sample(), 0xA5, 32, four, 4), 7, 0, 0, 0));
    expect("refused as the code is, before 7", same_word(desk_recover(repeated(), 0x100, 32, four, 4), 6, 5, 0, 0));
    expect("refused by 7: a stray bit in either read",
           same_places(desk_find_bad(sample(), 0x100, 0, 0, 0), 7, 0, 0, 0) &&
               same_places(desk_find_bad(sample(), 0, 32, 0, 0), 7, 0, 0, 0) &&
               same_places(desk_find_bad(sample(), 0, 0, 0x100, 0), 7, 0, 0, 0) &&
               same_places(desk_find_bad(sample(), 0, 0, 0, 32), 7, 0, 0, 0));
    expect("desk_find_bad: refused as the code is", same_places(desk_find_bad(repeated(), 0, 32, 0, 0), 6, 5, 0, 0));
}

/* ---- the wide edition */

/* The code of 128 data bits and 9 check bits that is made. */
static DeskWideCode widest(void) {
    return desk_wide_make(128, 9).code;
}

/* The sample in 128 places. */
static DeskWideCode wide_sample(void) {
    return (DeskWideCode){.columns = {28, 26, 25, 22, 21, 19, 14, 13}, .k = 8, .r = 5};
}

/* A record: data in two halves and check bits, low byte first. */
static void put_wide_record(uint8_t *record, uint64_t low, uint64_t high, uint16_t check) {
    put_record(record, low, 0);
    put_record(record + 8, high, check);
}

static int same_wide(DeskWideReadWord a, size_t number, size_t told, size_t verdict, size_t place, uint64_t low,
                     uint64_t high, uint16_t check, uint16_t syndrome) {
    return a.number == number && a.told == told && a.verdict == verdict && a.place == place && a.word.low == low &&
           a.word.high == high && a.word.check == check && a.syndrome == syndrome;
}

static void wide_code_fields(void) {
    DeskCheckBits bits = desk_wide_check_bits(128);
    expect("desk_wide_check_bits: every field", bits.number == 0 && bits.bits == 9);
    bits = desk_wide_check_bits(129);
    expect("desk_wide_check_bits: refused", bits.number == DESK_DATA_BITS && bits.bits == 0);
    expect("desk_check_bits: 65 data bits are still refused", desk_check_bits(65).number == DESK_DATA_BITS);
    DeskWideMade made = desk_wide_make(128, 9);
    expect("desk_wide_make: every field", made.number == 0 && made.code.k == 128 && made.code.r == 9 &&
                                              made.code.columns[0] == 7 && made.code.columns[127] == 217);
    made = desk_wide_make(128, 8);
    expect("desk_wide_make: refused", made.number == DESK_COLUMN_ROOM && made.code.k == 0 && made.code.r == 0 &&
                                          made.code.columns[0] == 0 && made.code.columns[127] == 0);
    DeskWideCode code = widest();
    DeskJudgement told = desk_wide_judge(code);
    expect("desk_wide_judge: accepted", told.number == 0 && told.told == 0);
    code.columns[127] = code.columns[5];
    told = desk_wide_judge(code);
    expect("desk_wide_judge: every field", told.number == DESK_REPEATED_COLUMN && told.told == 127);
    static const int32_t none[DESK_ROWS];
    expect("desk_wide_row_balance: refused", same_rows(desk_wide_row_balance(code), 6, 127, none));
    code = widest();
    code.k = 127;
    told = desk_wide_judge(code);
    expect("desk_wide_judge: the last place is left over", told.number == DESK_LEFTOVER && told.told == 127);
}

static void wide_balances(void) {
    static const int32_t rows[DESK_ROWS] = {-4, -4, 1, 1, 6};
    expect("desk_wide_row_balance: every row of the sample in 128 places",
           same_rows(desk_wide_row_balance(wide_sample()), 0, 0, rows));
    DeskRowBalance balance = desk_wide_row_balance(widest());
    int32_t sum = 0;
    for (size_t row = 0; row < DESK_ROWS; row++) {
        sum += balance.rows[row];
    }
    expect("desk_wide_row_balance: those of 137 columns add up to 0",
           balance.number == 0 && balance.rows[0] != 0 && sum == 0);
}

static void wide_word_fields(void) {
    const uint64_t low = 0x8877665544332211, high = 0xFFEEDDCCBBAA9988, one = 1;
    DeskWideCode code = widest();
    DeskCheckWord written = desk_wide_write(code, 0, one << 63);
    expect("desk_wide_write: every field", written.number == 0 && written.told == 0 && written.check == 217);
    written = desk_wide_write(code, low, high);
    expect("desk_wide_read: clean",
           same_wide(desk_wide_read(code, low, high, written.check), 0, 0, 0, 255, low, high, written.check, 0));
    expect("desk_wide_read: place 63", same_wide(desk_wide_read(code, low ^ one << 63, high, written.check), 0, 0, 1, 63,
                                                 low, high, written.check, code.columns[63]));
    expect("desk_wide_read: place 64", same_wide(desk_wide_read(code, low, high ^ one, written.check), 0, 0, 1, 64, low,
                                                 high, written.check, code.columns[64]));
    expect("desk_wide_read: place 127", same_wide(desk_wide_read(code, low, high ^ one << 63, written.check), 0, 0, 1,
                                                  127, low, high, written.check, code.columns[127]));
    expect("desk_wide_read: the last check place", same_wide(desk_wide_read(code, low, high, written.check ^ 256), 0, 0,
                                                             2, 136, low, high, written.check, 256));
    expect("desk_wide_read: two flips, one in each half",
           same_wide(desk_wide_read(code, low ^ one << 63, high ^ one, written.check), 0, 0, 3, 255, low ^ one << 63,
                     high ^ one, written.check, code.columns[63] ^ code.columns[64]));
    DeskWideMade narrow = desk_wide_make(64, 8);
    expect("desk_wide_read: any bit of the high half is stray past 64 data bits",
           same_wide(desk_wide_read(narrow.code, 0, 1, 0), 7, 0, 0, 0, 0, 0, 0, 0) &&
               same_wide(desk_wide_read(narrow.code, 0, one << 63, 0), 7, 0, 0, 0, 0, 0, 0, 0));
    DeskWideMade shorter = desk_wide_make(127, 9);
    written = desk_wide_write(shorter.code, 0, one << 63);
    expect("desk_wide_write: refused", written.number == DESK_STRAY_BITS && written.check == 0);
    expect("desk_wide_write: the last bit below k", desk_wide_write(shorter.code, 0, one << 62).number == 0);
}

/* As `paired`, in 128 places: 72 explanations, and no list is longer. */
static DeskWideCode wide_paired(void) {
    DeskWideCode code = {.r = 16};
    for (unsigned j = 2; j < 16; j++) {
        code.columns[code.k++] = (uint16_t)(1u << j ^ 3);
    }
    for (unsigned column = 4; code.k < DESK_WIDE_COLUMNS; column += 4) {
        if (__builtin_popcount(column) == 3) {
            code.columns[code.k++] = (uint16_t)column;
            code.columns[code.k++] = (uint16_t)(column ^ 3);
        }
    }
    return code;
}

static void wide_lists_and_cards(void) {
    uint8_t list[DESK_WIDE_LONGEST_LIST];
    memset(list, 0xEE, sizeof list);
    DeskListing a = desk_wide_explain(wide_paired(), 0, 0, 3, 2, list, sizeof list - 1);
    expect("desk_wide_explain: the longest list, a byte short",
           a.number == DESK_LIST_ROOM && a.told == 72 && a.length == 0 && is_filled(list, sizeof list, 0xEE));
    a = desk_wide_explain(wide_paired(), 0, 0, 3, 2, list, sizeof list);
    expect("desk_wide_explain: the longest list has 72 entries", a.number == 0 && a.told == 0 && a.length == 72);
    expect("desk_wide_explain: its first and its last pair",
           list[0] == 0 && list[1] == 130 && list[142] == 128 && list[143] == 129);
    DeskCardCheck cards = desk_wide_cards(wide_sample(), 3);
    expect("desk_wide_cards: every field", cards.number == 9 && cards.told == 0 && cards.card == 1 && cards.mask == 7);
    cards = desk_wide_cards(widest(), 9);
    expect("desk_wide_cards: refused", cards.number == DESK_CARD_SIZE && cards.card == 0 && cards.mask == 0);
}

/* Five records under the code of 120 data bits and 8 check bits, a journal, and guards about both. */
typedef struct WideLent {
    uint8_t before[64], image[5 * DESK_WIDE_RECORD], between[64], journal[5 * DESK_WIDE_ENTRY + 7], behind[64];
} WideLent;

/* Clean, data bit 119 flipped, check bit 7, a flip in each half, a stray bit in the high half. */
static void lend_wide(WideLent *lent) {
    const uint64_t one = 1;
    memset(lent, 0xEE, sizeof *lent);
    put_wide_record(lent->image, 0, 0, 0);
    put_wide_record(lent->image + DESK_WIDE_RECORD, 0, one << 55, 0);
    put_wide_record(lent->image + 2 * DESK_WIDE_RECORD, 0, 0, 128);
    put_wide_record(lent->image + 3 * DESK_WIDE_RECORD, one << 63, one, 0);
    put_wide_record(lent->image + 4 * DESK_WIDE_RECORD, 0, one << 56, 0);
}

/* A pass over records 0 up to `end` of `length` bytes. */
static DeskPassAnswer pass_wide(WideLent *lent, size_t length, size_t end, size_t room, size_t used, uint32_t stamp) {
    return desk_wide_pass(desk_wide_make(120, 8).code, lent->image, length, 0, end, lent->journal, room, used, stamp);
}

static void wide_passes(void) {
    WideLent lent;
    enum { IMAGE = sizeof lent.image, JOURNAL = sizeof lent.journal };
    lend_wide(&lent);
    DeskPassAnswer a = pass_wide(&lent, IMAGE, 5, 4 * DESK_WIDE_ENTRY - 1, 0, 1);
    expect("desk_wide_pass: refused by 13", a.number == 13 && a.told == 4 && a.used == 0 &&
                                                same_tally(a.tally, 0, 0, 0, 0, 0, 0) &&
                                                is_filled(lent.journal, JOURNAL, 0xEE));
    a = pass_wide(&lent, IMAGE, 5, JOURNAL, 0, 0x04030201);
    expect("desk_wide_pass: every field",
           a.number == 0 && a.told == 0 && a.used == 4 && same_tally(a.tally, 1, 1, 1, 1, 0, 1));
    static const uint8_t first[] = {1, 2, 3, 4, 1, 0, DESK_DATA, 119, 254, 0};
    expect("desk_wide_pass: the first entry", memcmp(lent.journal, first, sizeof first) == 0 &&
                                                  lent.journal[10 + 14] == 0x80 && lent.journal[10 + 18 + 14] == 0);
    static const uint8_t last[] = {1, 2, 3, 4, 4, 0, DESK_STRAY, DESK_NO_PLACE, 0, 0};
    expect("desk_wide_pass: the last entry", memcmp(lent.journal + 3 * DESK_WIDE_ENTRY, last, sizeof last) == 0);
    expect("desk_wide_pass: two records are mended",
           is_filled(lent.image, 3 * DESK_WIDE_RECORD, 0) && lent.image[3 * DESK_WIDE_RECORD + 7] == 0x80);
    expect("desk_wide_pass: bytes past the entries and guards stay",
           is_filled(lent.journal + 4 * DESK_WIDE_ENTRY, DESK_WIDE_ENTRY + 7, 0xEE) &&
               is_filled(lent.before, 64, 0xEE) && is_filled(lent.between, 64, 0xEE) &&
               is_filled(lent.behind, 64, 0xEE));
    expect("desk_wide_pass: refused by 16", pass_wide(&lent, IMAGE, 5, JOURNAL, 4, 0x04030200).number == DESK_STAMP);
    expect("desk_wide_pass: refused by 17",
           pass_wide(&lent, IMAGE, 5, JOURNAL, 6, UINT32_MAX).number == DESK_COUNT_IN_USE);
    expect("desk_wide_pass: refused by 14", pass_wide(&lent, IMAGE, 6, JOURNAL, 0, 0).number == DESK_RUN);
    expect("desk_wide_pass: records of ten bytes are refused by 12",
           pass_wide(&lent, 5 * DESK_RECORD, 1, JOURNAL, 0, 0).number == DESK_IMAGE_LENGTH);
}

static void wide_backs(void) {
    WideLent lent, as_read;
    enum { IMAGE = sizeof lent.image, JOURNAL = sizeof lent.journal };
    lend_wide(&lent);
    lend_wide(&as_read);
    pass_wide(&lent, IMAGE, 5, JOURNAL, 0, 0x04030201);
    expect("desk_wide_put_back: every field",
           same_back(desk_wide_put_back(lent.image, IMAGE, lent.journal, JOURNAL, 4), 0, 4));
    expect("desk_wide_put_back: the image as it was read", memcmp(lent.image, as_read.image, IMAGE) == 0);
    expect("desk_wide_put_back: it stops at a record that does not match",
           same_back(desk_wide_put_back(lent.image, IMAGE, lent.journal, 2 * DESK_WIDE_ENTRY, 2), 18, 0));
    expect("desk_wide_put_back: refused by 17",
           same_back(desk_wide_put_back(lent.image, IMAGE, lent.journal, 4 * DESK_ENTRY, 4), DESK_COUNT_IN_USE, 0));
    expect("desk_wide_put_back: refused by 12",
           same_back(desk_wide_put_back(lent.image, 5 * DESK_RECORD, lent.journal, JOURNAL, 4), DESK_IMAGE_LENGTH, 0));
    expect("desk_wide_put_back: a refusal leaves the image", memcmp(lent.image, as_read.image, IMAGE) == 0);
}

static int same_wide_word(size_t number, size_t told, DeskWideWord a, size_t refused, size_t place, uint64_t low,
                          uint64_t high, uint16_t check) {
    return number == refused && told == place && a.low == low && a.high == high && a.check == check;
}

static int recovers(DeskWideRecovered a, size_t number, size_t told, uint64_t low, uint64_t high, uint16_t check) {
    return same_wide_word(a.number, a.told, a.word, number, told, low, high, check);
}

static int finds(DeskWideBadPlaces a, size_t number, size_t told, uint64_t low, uint64_t high, uint16_t check) {
    return same_wide_word(a.number, a.told, a.word, number, told, low, high, check);
}

static void wide_bad_places(void) {
    static const size_t halves[] = {64, 63, 136}, ends[] = {127, 0}, outside[] = {137}, again[] = {64, 64};
    const uint64_t low = 0x8877665544332211, high = 0xFFEEDDCCBBAA9988, one = 1;
    DeskWideCode code = widest();
    uint16_t check = desk_wide_write(code, low, high).check;
    expect("desk_wide_recover: a bad place in each part",
           recovers(desk_wide_recover(code, low ^ one << 63, high ^ one, check ^ 256, halves, 3), 0, 0, low, high, check));
    expect("desk_wide_recover: the first and the last data place",
           recovers(desk_wide_recover(code, low ^ one, high ^ one << 63, check, ends, 2), 0, 0, low, high, check));
    expect("desk_wide_recover: one, and a flip beside it",
           recovers(desk_wide_recover(code, low, high ^ one ^ one << 62, check, halves, 1), 0, 0, low, high, check));
    expect("desk_wide_recover: none, and no pointer",
           recovers(desk_wide_recover(code, low, high ^ one, check, NULL, 0), 0, 0, low, high, check));
    expect("desk_wide_recover: refused by 22",
           recovers(desk_wide_recover(code, low, high, check, outside, 1), 22, 0, 0, 0, 0) &&
               recovers(desk_wide_recover(code, low, high, check, again, 2), 22, 0, 0, 0, 0));
    expect("desk_wide_recover: refused by 23",
           recovers(desk_wide_recover(code, low ^ one, high ^ one, check, NULL, 0), 23, 0, 0, 0, 0));
    expect("desk_wide_recover: refused by 7 before 22",
           recovers(desk_wide_recover(code, low, high, 512, outside, 1), 7, 0, 0, 0, 0));
    DeskWideWord first = {low, high, check}, second = {~low, ~high, check ^ 511};
    expect("desk_wide_find_bad: no place", finds(desk_wide_find_bad(code, first, second), 0, 0, 0, 0, 0));
    second = (DeskWideWord){~low ^ one << 63, ~high ^ one, check ^ 255};
    expect("desk_wide_find_bad: every field",
           finds(desk_wide_find_bad(code, first, second), 0, 0, one << 63, one, 256));
    expect("desk_wide_find_bad: every place below n, and none above",
           finds(desk_wide_find_bad(code, first, first), 0, 0, UINT64_MAX, UINT64_MAX, 511));
    second.check = 512;
    expect("desk_wide_find_bad: refused by 7 in either read",
           finds(desk_wide_find_bad(code, first, second), 7, 0, 0, 0, 0) &&
               finds(desk_wide_find_bad(code, second, first), 7, 0, 0, 0, 0));
    code.columns[127] = code.columns[5];
    expect("both are refused as the code is",
           recovers(desk_wide_recover(code, low, high, 512, outside, 1), 6, 127, 0, 0, 0) &&
               finds(desk_wide_find_bad(code, first, second), 6, 127, 0, 0, 0));
}

static void longest_wide_image(void) {
    static uint8_t image[DESK_WIDE_IMAGE + DESK_WIDE_RECORD];
    DeskPassAnswer a = desk_wide_pass(widest(), image, DESK_WIDE_IMAGE, 0, 3640, NULL, 0, 0, 0);
    expect("desk_wide_pass: the longest image", a.number == DESK_DONE && same_tally(a.tally, 3640, 0, 0, 0, 0, 0));
    a = desk_wide_pass(widest(), image, DESK_WIDE_IMAGE + DESK_WIDE_RECORD, 0, 1, NULL, 0, 0, 0);
    expect("desk_wide_pass: a record more is refused", a.number == DESK_IMAGE_LENGTH);
}

/* ---- codes with a set of rows: source document 002, figure 3, whose rows 1 to 4 are the set */

static const uint16_t figure_3[] = {28, 14, 22, 26, 29, 3, 5, 9, 17, 2, 4, 8, 16};

static DeskRowCode rows_of_figure_3(void) {
    DeskRowCode code = {{0}, 13, 5, 30};
    memcpy(code.columns, figure_3, sizeof figure_3);
    return code;
}

static DeskWideRowCode wide_rows_of_figure_3(void) {
    DeskWideRowCode code = {{0}, 13, 5, 30};
    memcpy(code.columns, figure_3, sizeof figure_3);
    return code;
}

/* Figure 3's row balances. */
static const int32_t balances_of_figure_3[DESK_ROWS] = {-3, -3, 2, 2, 2};

static int same_written_check(DeskCheckWord a, size_t number, size_t told, uint16_t check) {
    return a.number == number && a.told == told && a.check == check;
}

static int same_cards(DeskCardCheck a, size_t number, size_t told, size_t card, size_t mask) {
    return a.number == number && a.told == told && a.card == card && a.mask == mask;
}

static int same_list(DeskListing a, size_t number, size_t told, size_t length) {
    return a.number == number && a.told == told && a.length == length;
}

static void row_judges(void) {
    DeskRowCode code = rows_of_figure_3();
    DeskJudgement told = desk_rows_judge(code);
    expect("desk_rows_judge: accepted", told.number == DESK_DONE && told.told == 0);
    code.columns[79] = 1;
    told = desk_rows_judge(code);
    expect("desk_rows_judge: the last place is seen", told.number == DESK_LEFTOVER && told.told == 79);
    code = rows_of_figure_3();
    code.rows = 31;
    told = desk_rows_judge(code);
    expect("desk_rows_judge: the set is seen", told.number == DESK_ROW_SET && told.told == 4);
    DeskWideRowCode wide = wide_rows_of_figure_3();
    told = desk_wide_rows_judge(wide);
    expect("desk_wide_rows_judge: accepted", told.number == DESK_DONE && told.told == 0);
    wide.columns[143] = 1;
    told = desk_wide_rows_judge(wide);
    expect("desk_wide_rows_judge: the last place is seen", told.number == DESK_LEFTOVER && told.told == 143);
}

static void row_fields(void) {
    static const size_t bad[] = {1};
    DeskRowCode code = rows_of_figure_3();
    expect("desk_rows_row_balance: every row", same_rows(desk_rows_row_balance(code), 0, 0, balances_of_figure_3));
    expect("desk_rows_write: every field", same_written_check(desk_rows_write(code, 0xFF), 0, 0, 12));
    expect("desk_rows_read: every field",
           same_read(desk_rows_read(code, 0x03, 28), 0, 0, DESK_DATA, 1, 1, 28, 14));
    uint8_t list[4] = {7, 7, 7, 7};
    expect("desk_rows_explain: every field and byte",
           same_list(desk_rows_explain(code, 0x03, 28, 1, list, 3), 0, 0, 1) &&
               memcmp(list, (const uint8_t[]){1, DESK_NO_PLACE, 7, 7}, 4) == 0);
    expect("desk_rows_cards: every field", same_cards(desk_rows_cards(code, 4), DESK_WEAK_CARD, 0, 0, 7));
    uint8_t image[DESK_RECORD] = {3, 0, 0, 0, 0, 0, 0, 0, 28, 0}, journal[DESK_ENTRY] = {0};
    DeskPassAnswer passed = desk_rows_pass(code, image, sizeof image, 0, 1, journal, sizeof journal, 0, 9);
    expect("desk_rows_pass: every field",
           passed.number == 0 && passed.told == 0 && passed.used == 1 && same_tally(passed.tally, 0, 1, 0, 0, 0, 0));
    static const uint8_t entry[DESK_ENTRY] = {
        [0] = 9, [6] = DESK_DATA, [7] = 1, [8] = 14, [10] = 3, [18] = 28, [20] = 1, [28] = 28};
    expect("desk_rows_pass: image and journal",
           memcmp(image, entry + 20, sizeof image) == 0 && memcmp(journal, entry, sizeof journal) == 0);
    expect("desk_rows_recover: every field", same_word(desk_rows_recover(code, 0x02, 28, bad, 1), 0, 0, 1, 28));
    expect("desk_rows_find_bad: every field", same_places(desk_rows_find_bad(code, 0xFE, 29, 0, 0), 0, 0, 1, 2));
}

static void wide_row_fields(void) {
    static const size_t bad[] = {1};
    DeskWideRowCode code = wide_rows_of_figure_3();
    expect("desk_wide_rows_row_balance: every row",
           same_rows(desk_wide_rows_row_balance(code), 0, 0, balances_of_figure_3));
    expect("desk_wide_rows_write: every field", same_written_check(desk_wide_rows_write(code, 0xFF, 0), 0, 0, 12));
    expect("desk_wide_rows_write: the high half is seen",
           same_written_check(desk_wide_rows_write(code, 0xFF, 1), DESK_STRAY_BITS, 0, 0));
    expect("desk_wide_rows_read: every field",
           same_wide(desk_wide_rows_read(code, 0x03, 0, 28), 0, 0, DESK_DATA, 1, 1, 0, 28, 14));
    uint8_t list[4] = {7, 7, 7, 7};
    expect("desk_wide_rows_explain: every field and byte",
           same_list(desk_wide_rows_explain(code, 0x03, 0, 28, 1, list, 3), 0, 0, 1) &&
               memcmp(list, (const uint8_t[]){1, DESK_NO_PLACE, 7, 7}, 4) == 0);
    expect("desk_wide_rows_cards: every field", same_cards(desk_wide_rows_cards(code, 4), DESK_WEAK_CARD, 0, 0, 7));
    uint8_t image[DESK_WIDE_RECORD] = {[0] = 3, [16] = 28}, journal[DESK_WIDE_ENTRY] = {0};
    DeskPassAnswer passed = desk_wide_rows_pass(code, image, sizeof image, 0, 1, journal, sizeof journal, 0, 9);
    expect("desk_wide_rows_pass: every field",
           passed.number == 0 && passed.told == 0 && passed.used == 1 && same_tally(passed.tally, 0, 1, 0, 0, 0, 0));
    static const uint8_t entry[DESK_WIDE_ENTRY] = {
        [0] = 9, [6] = DESK_DATA, [7] = 1, [8] = 14, [10] = 3, [26] = 28, [28] = 1, [44] = 28};
    expect("desk_wide_rows_pass: image and journal",
           memcmp(image, entry + 28, sizeof image) == 0 && memcmp(journal, entry, sizeof journal) == 0);
    expect("desk_wide_rows_recover: every field",
           recovers(desk_wide_rows_recover(code, 0x02, 0, 28, bad, 1), 0, 0, 1, 0, 28));
    expect("desk_wide_rows_find_bad: every field",
           finds(desk_wide_rows_find_bad(code, (DeskWideWord){0xFE, 0, 29}, (DeskWideWord){0, 0, 0}), 0, 0, 1, 0, 2));
}

/* Figures 1 and 2 define the same words; figure 2 is the sample code. */
static void same_check_bits(void) {
    static const uint16_t figure_1[] = {28, 26, 25, 22, 21, 19, 30, 29, 17, 18, 20, 24, 16};
    DeskRowCode one = {{0}, 13, 5, 16};
    memcpy(one.columns, figure_1, sizeof figure_1);
    int same = 1;
    for (uint64_t data = 0; data < 256; data++) {
        same &= desk_rows_write(one, data).check == desk_write(sample(), data).check;
    }
    expect("desk_rows_write: figures 1 and 2 write the same check bits for all 256 data words", same);
}

/* ---- the quick engine: as the plain one, between guards, in every family and edition */

enum { QUICK_GUARD = 64, QUICK_RECORDS = 300 };

/* What is lent to a pass: an image and a journal, with guards before, between and behind them. */
typedef struct Lent {
    uint8_t bytes[3 * QUICK_GUARD + QUICK_RECORDS * (DESK_WIDE_RECORD + DESK_WIDE_ENTRY)];
    uint8_t *image, *journal;
    size_t image_length, journal_length;
} Lent;

/* Random records of 8 data bits and 5 check bits, some with a stray bit more; the same for the same `size`. */
static void lend(Lent *lent, size_t size, size_t entry) {
    memset(lent->bytes, 0xEE, sizeof lent->bytes);
    lent->image_length = QUICK_RECORDS * size;
    lent->journal_length = QUICK_RECORDS * entry;
    lent->image = lent->bytes + QUICK_GUARD;
    lent->journal = lent->image + lent->image_length + QUICK_GUARD;
    memset(lent->image, 0, lent->image_length);
    uint32_t number = 1;
    for (size_t at = 0; at < QUICK_RECORDS; at++) {
        number = number * 1664525 + 1013904223;
        lent->image[at * size] = (uint8_t)(number >> 24);
        lent->image[at * size + 1] = at % 16 == 15;
        lent->image[at * size + size - 2] = number >> 16 & 31;
    }
}

/* Both passes over the same run, of the same image: the same answer, and the same bytes, guards too. */
#define QUICK_AS_PLAIN(plain, quick, code, size, entry, start, end, room)                                               \
    do {                                                                                                               \
        static Lent one, other;                                                                                        \
        lend(&one, size, entry);                                                                                       \
        lend(&other, size, entry);                                                                                     \
        DeskPassAnswer a = plain(code, one.image, one.image_length, start, end, one.journal, room, 0, 7);              \
        DeskPassAnswer b = quick(code, other.image, other.image_length, start, end, other.journal, room, 0, 7);        \
        DeskTally t = a.tally;                                                                                         \
        expect(#quick ": run " #start " to " #end ", answers as " #plain,                                              \
               a.number == b.number && a.told == b.told && a.used == b.used &&                                         \
                   same_tally(b.tally, t.clean, t.data, t.check, t.even, t.odd, t.stray));                             \
        expect(#quick ": and leaves every byte as " #plain, memcmp(one.bytes, other.bytes, sizeof one.bytes) == 0);    \
        expect(#quick ": which is done or wants room", a.number == (a.told == 0 ? DESK_DONE : DESK_JOURNAL_ROOM));     \
    } while (0)

/* A long run, a short one, and one for whose entries there is no room. */
#define QUICK_RUNS(plain, quick, code, size, entry)                                                                    \
    do {                                                                                                               \
        QUICK_AS_PLAIN(plain, quick, code, size, entry, 0, QUICK_RECORDS, QUICK_RECORDS * (entry));                    \
        QUICK_AS_PLAIN(plain, quick, code, size, entry, 14, 17, 3 * (entry));                                          \
        QUICK_AS_PLAIN(plain, quick, code, size, entry, 1, 299, 5 * (entry));                                          \
    } while (0)

static void quick_passes(void) {
    QUICK_RUNS(desk_pass, desk_quick_pass, sample(), DESK_RECORD, DESK_ENTRY);
    QUICK_RUNS(desk_wide_pass, desk_wide_quick_pass, wide_sample(), DESK_WIDE_RECORD, DESK_WIDE_ENTRY);
    QUICK_RUNS(desk_rows_pass, desk_rows_quick_pass, rows_of_figure_3(), DESK_RECORD, DESK_ENTRY);
    QUICK_RUNS(desk_wide_rows_pass, desk_wide_rows_quick_pass, wide_rows_of_figure_3(), DESK_WIDE_RECORD,
               DESK_WIDE_ENTRY);
}

int main(void) {
    version();
    code_fields();
    word_fields();
    syndromes();
    list_and_card_fields();
    longest_list();
    pass_fields();
    passes_in_one_journal();
    back_fields();
    back_refusals();
    back_after_passes();
    longest_image();
    refusals_leave_buffers();
    sheet_fields();
    sheet_refusals();
    made_fields();
    byte_fields();
    byte_refusals();
    bad_fields();
    bad_refusals();
    wide_code_fields();
    wide_balances();
    wide_word_fields();
    wide_lists_and_cards();
    wide_passes();
    wide_backs();
    wide_bad_places();
    longest_wide_image();
    row_judges();
    row_fields();
    wide_row_fields();
    same_check_bits();
    quick_passes();
    return finish();
}
