/*
 * The mending desk for callers in C and C++: one function for each question.
 *
 * Link target/staticlib/libdesk.a (x86-64, System V). It needs memcpy and memset, and nothing of the system.
 * Every function is total: it answers any code and any numbers, of doubles every bit pattern. A code is judged first,
 * by every call that has one.
 *
 * Answers. `number` is 0 (done) or the number of the refusal, and `told` is what goes with that number in the table
 * below, else 0. Numbers 9 and 18 tell in fields of their own: card and mask, and count. DeskCheckBits, DeskMade and
 * DeskWideMade tell nothing, and have no `told`. A refusal has 0 in every other field, so `yes` is false, and changes no byte that was lent;
 * 18 alone leaves what desk_put_back put back before it. Answers have padding, whose bytes may be anything: compare
 * fields, and not the whole by memcmp.
 *
 * What is counted. `list_length`, `image_length` and `journal_length` are bytes. Nothing else is:
 *   start, end  records, from the image's first; the record at `end` is not in the run
 *   length      entries of the list, two bytes each
 *   used        entries of the journal, DESK_ENTRY bytes each: those in use before a call, and in a pass's answer those
 *               after it (in the wide edition DESK_WIDE_ENTRY bytes each)
 *   count       entries of the journal: those that were put back; handed in with `bad`, the places that it names
 *   told        with 3 to 6 and 21 a place, with 20 a reason, with 10 entries of the list, with 13 entries of the journal
 *
 * Time. A pass's stamp is any number that does not fall along a journal; what it counts is the caller's affair.
 *
 * Bytes of three bits. The `byte` of DeskByteReading is the number of such a byte, and no place.
 *
 * Figures. `hours`, and `device` and `station` of a sheet, are hours. `share`, `low` and `high` are parts of 1.
 *
 * Lent buffers. Each must be valid for its length, to read and to write; one behind a pointer to const is only read. Those
 * that one call is lent must not overlap: not image and journal, nor any other two. What happens if they do is
 * unspecified. With length 0 nothing is read or written, and any pointer will do, NULL too.
 *
 * Threads. Calls share no state: any number may run at once, on any thread, if no byte is lent to two of them. A byte that
 * is lent to be read alone may be lent so to several.
 */
#ifndef DESK_H
#define DESK_H

#include <stdbool.h>
#include <stddef.h>
#include <stdint.h>

#if !defined(__x86_64__) || defined(__ILP32__)
#error "libdesk.a is for x86-64"
#endif

#ifdef __cplusplus
extern "C" {
#endif

/*
 * The version that this header is written for. It is raised whenever a struct, a size or a meaning changes, and
 * desk_version alone stays as it is. A caller compares it with the archive's before the first other call:
 *
 *     if (desk_version() != DESK_VERSION)
 *         abort();
 */
#define DESK_VERSION 5

/* The field `number` of an answer: exactly when, and what is told. It is the table of docs/refusals.txt. */
enum DeskNumber {
    DESK_DONE = 0,            /* done */
    DESK_DATA_BITS = 1,       /* k is 0 or over 64; wide edition: over 128; with a set of rows k is n - r, and 0 where n
                                 is below r */
    DESK_CHECK_BITS = 2,      /* r below 3 or over 16 */
    DESK_WIDE_COLUMN = 3,     /* a column is 2^r or more; told: first bad place */
    DESK_EVEN_COLUMN = 4,     /* a column has an even count of ones, 0 included; told: place */
    DESK_SINGLE_ONE = 5,      /* a data column has a single one; told: place */
    DESK_REPEATED_COLUMN = 6, /* a column equals an earlier data column; told: place */
    DESK_STRAY_BITS = 7,      /* single word: a data bit at k or above, or a check bit at r or above, is set
                                 (writing: data only); word of ten bytes: a bit at 30 or above (writing: a data bit at
                                 21 or above) */
    DESK_CARD_SIZE = 8,       /* b below 2 or over 8 */
    DESK_WEAK_CARD = 9,       /* code not card-proof for b; told: card, mask */
    DESK_LIST_ROOM = 10,      /* list longer than its room; told: list's length */
    DESK_FLIP_LIMIT = 11,     /* flip limit over 2 */
    DESK_IMAGE_LENGTH = 12,   /* image length no multiple of 10, or over 65,530; wide edition: of 18, over 65,520 */
    DESK_JOURNAL_ROOM = 13,   /* journal room left (its length / 30, wide edition: / 46, down, less the entries in use)
                                 below the entries needed; told: entries needed */
    DESK_RUN = 14,            /* run's start above its end, or its end above the number of records */
    DESK_COLUMN_ROOM = 15,    /* making a code: k is over 2^(r-1) - r */
    DESK_STAMP = 16,          /* the pass's stamp is below the last used entry's */
    DESK_COUNT_IN_USE = 17,   /* the count of entries in use is over the journal's room */
    DESK_MISMATCH = 18,       /* putting back: an entry's record number lies outside the image, or that record does not
                                 hold the entry's bytes as left; told: entries put back */
    DESK_SHEET = 19,          /* device count 0 or over 65,535, word count 0 or over 65,535, mended above words, hours
                                 not finite or not above zero, a limit's figure not finite or below zero, a band upside
                                 down */
    DESK_ROW_SET = 20,        /* codes with a set of rows, the first reason that holds: 1, the set is empty or names a row
                                 at r or above; 2, a zero or repeated column; 3, the last r columns are not triangular
                                 with ones on the diagonal; 4, a column has an even count of ones within the set; told:
                                 reason */
    DESK_LEFTOVER = 21,       /* a place past k is not 0; with a set of rows: past n; told: first such place */
    DESK_BAD_PLACES = 22,     /* more than three bad places, a repeat, or a place at n or above */
    DESK_NO_CODE_WORD = 23,   /* bad places: no code word differs from the word as read, outside them, in at most one
                                 place where none or one is bad, in none where two or three are */
};

/* The field `verdict` of a reading, the seventh byte of a journal entry, and the order of a tally. */
enum DeskVerdict {
    DESK_CLEAN = 0, /* nothing is wrong */
    DESK_DATA = 1,  /* one data bit was flipped, and is mended */
    DESK_CHECK = 2, /* one check bit was flipped, and is mended */
    DESK_EVEN = 3,  /* an even syndrome: the word as read */
    DESK_ODD = 4,   /* an odd syndrome that is no column: the word as read */
    DESK_STRAY = 5  /* in a pass only: a bit past k or past r is set; the record stays */
};

/* The field `verdict` of a word of ten bytes. */
enum DeskByteVerdict {
    DESK_BYTE_CLEAN = 0,  /* nothing is wrong */
    DESK_BYTE_DATA = 1,   /* one data byte was wrong, and is put right */
    DESK_BYTE_CHECK = 2,  /* one check byte was wrong, and is put right */
    DESK_BYTE_FLAGGED = 3 /* no error within one byte explains it: the word as read */
};

#define DESK_NO_PLACE 255     /* the place of a reading or an entry that has none */
#define DESK_NO_BYTE 255      /* the number of a byte where none is named */
#define DESK_COLUMNS 64       /* column places of a code */
#define DESK_ROWS 16          /* rows of a balance */
#define DESK_LONGEST_LIST 80  /* bytes that hold any list of explanations */
#define DESK_RECORD 10        /* bytes of a record: data in 8, check bits in 2, low byte first */
#define DESK_ENTRY 30         /* bytes of a journal entry: stamp in 4, record number in 2, verdict, place, syndrome in 2,
                                 10 as read, 10 as left; numbers low byte first. A stray record's syndrome is 0 */
#define DESK_IMAGE 65530      /* bytes of the longest image */

/* The same sizes in the wide edition. */
#define DESK_WIDE_COLUMNS 128
#define DESK_WIDE_LONGEST_LIST 144
#define DESK_WIDE_RECORD 18   /* data in 16, check bits in 2, low byte first */
#define DESK_WIDE_ENTRY 46    /* as DESK_ENTRY, with 18 bytes as read and 18 as left */
#define DESK_WIDE_IMAGE 65520 /* 3,640 records */

/* Column places of a code with a set of rows, in either edition. */
#define DESK_ROW_COLUMNS 80
#define DESK_WIDE_ROW_COLUMNS 144

/* A code: k data columns, each with row j as its bit j, and r check bits. Places past k hold 0. */
typedef struct DeskCode {
    uint16_t columns[DESK_COLUMNS];
    size_t k;
    size_t r;
} DeskCode;

/* The answer of desk_check_bits: the check bits wanted. Its one refusal tells nothing. */
typedef struct DeskCheckBits {
    size_t number;
    size_t bits;
} DeskCheckBits;

/* The answer of desk_judge. */
typedef struct DeskJudgement {
    size_t number;
    size_t told;
} DeskJudgement;

/* The answer of desk_row_balance: rows at r or above are 0. */
typedef struct DeskRowBalance {
    size_t number;
    size_t told;
    int32_t rows[DESK_ROWS];
} DeskRowBalance;

/* The answer of desk_write: the check bits. */
typedef struct DeskCheckWord {
    size_t number;
    size_t told;
    uint16_t check;
} DeskCheckWord;

/*
 * The answer of desk_read: a verdict (0 to 4), a place, the word that is handed back, and the syndrome of the word as
 * read: the exclusive or of the columns of all set bits. It is 0 exactly for a clean word, and the column of the place
 * where one bit is mended. In Hsiao's family, where check bit j has the column 2^j, it is what desk_write gives for the
 * data, exclusive-ored with the check bits.
 */
typedef struct DeskReadWord {
    size_t number;
    size_t told;
    size_t verdict;
    size_t place;
    uint64_t data;
    uint16_t check;
    uint16_t syndrome;
} DeskReadWord;

/* The answer of desk_explain: the length of a done list, in entries. */
typedef struct DeskListing {
    size_t number;
    size_t told;
    size_t length;
} DeskListing;

/*
 * The answer of desk_cards: with number 9 the first weak card, and on it the smallest weak mask, bit t for the card's
 * place t. Data cards are numbered first, from 0; the first check card has the number (k + b - 1) / b.
 */
typedef struct DeskCardCheck {
    size_t number;
    size_t told;
    size_t card;
    size_t mask;
} DeskCardCheck;

/* How many records of a run have each verdict. */
typedef struct DeskTally {
    uint16_t clean;
    uint16_t data;
    uint16_t check;
    uint16_t even;
    uint16_t odd;
    uint16_t stray;
} DeskTally;

/* The answer of desk_pass: the entries in use after it, for the next pass, and the tally. */
typedef struct DeskPassAnswer {
    size_t number;
    size_t told;
    size_t used;
    DeskTally tally;
} DeskPassAnswer;

/*
 * The answer of desk_put_back: how many entries were put back. Done, it is all that are in use; with number 18 it is those
 * behind the entry that does not match, which is the entry `used - 1 - count`; with 12 and 17 it is 0.
 */
typedef struct DeskPutBack {
    size_t number;
    size_t told;
    size_t count;
} DeskPutBack;

/* A station sheet. Hours per station may be 0: the quotient is rounded once, to the nearest double. */
typedef struct DeskSheet {
    double device;  /* hours per device, as given */
    double station; /* hours per station: hours per device / devices */
    double share;   /* the share of words mended: mended / words, from 0 to 1 */
} DeskSheet;

/* The answer of desk_sheet_ceiling, desk_sheet_band and desk_sheet_open: no and three zeros where it is refused. */
typedef struct DeskSheetAnswer {
    size_t number;
    size_t told;
    bool yes;
    DeskSheet sheet;
} DeskSheetAnswer;

/* The answer of desk_make: the code that is made; k, r and every column are 0 where it is refused. */
typedef struct DeskMade {
    size_t number;
    DeskCode code;
} DeskMade;

/*
 * The number of a byte of three bits in a word of ten: 0 to 6 are data bytes, 7 to 9 check bytes. It is a type of its
 * own, so that the compiler refuses it where a place is wanted, and a place where it is.
 */
typedef struct DeskByteNumber {
    size_t number;
} DeskByteNumber;

/* The answer of desk_byte_write: the whole word. */
typedef struct DeskByteWriting {
    size_t number;
    size_t told;
    uint64_t word;
} DeskByteWriting;

/* The answer of desk_byte_read: a verdict (0 to 3), a byte, and the word that is handed back. */
typedef struct DeskByteReading {
    size_t number;
    size_t told;
    size_t verdict;
    DeskByteNumber byte;
    uint64_t word;
} DeskByteReading;

/* The answer of desk_recover: the code word. */
typedef struct DeskRecovered {
    size_t number;
    size_t told;
    uint64_t data;
    uint16_t check;
} DeskRecovered;

/* The answer of desk_find_bad: a one for each bad data bit and for each bad check bit. */
typedef struct DeskBadPlaces {
    size_t number;
    size_t told;
    uint64_t data;
    uint16_t check;
} DeskBadPlaces;

/* A code of the wide edition: as DeskCode, with 128 places. */
typedef struct DeskWideCode {
    uint16_t columns[DESK_WIDE_COLUMNS];
    size_t k;
    size_t r;
} DeskWideCode;

/* A word of the wide edition: data bits 0 to 63 in `low`, 64 to 127 in `high`. */
typedef struct DeskWideWord {
    uint64_t low;
    uint64_t high;
    uint16_t check;
} DeskWideWord;

/* The answer of desk_wide_read: as DeskReadWord, with the word that is handed back as one struct. */
typedef struct DeskWideReadWord {
    size_t number;
    size_t told;
    size_t verdict;
    size_t place;
    uint16_t syndrome;
    DeskWideWord word;
} DeskWideReadWord;

/* The answer of desk_wide_make. */
typedef struct DeskWideMade {
    size_t number;
    DeskWideCode code;
} DeskWideMade;

/* The answer of desk_wide_recover: the code word. */
typedef struct DeskWideRecovered {
    size_t number;
    size_t told;
    DeskWideWord word;
} DeskWideRecovered;

/* The answer of desk_wide_find_bad: a one for each bad place. */
typedef struct DeskWideBadPlaces {
    size_t number;
    size_t told;
    DeskWideWord word;
} DeskWideBadPlaces;

/*
 * A code with a set of rows: n columns, the last r of them check columns, which need not be single ones; bit j of `rows` says
 * that row j is in the set. Its k is n - r. Places past n hold 0.
 */
typedef struct DeskRowCode {
    uint16_t columns[DESK_ROW_COLUMNS];
    size_t n;
    size_t r;
    uint16_t rows;
} DeskRowCode;

/* The same in the wide edition, with 144 places. */
typedef struct DeskWideRowCode {
    uint16_t columns[DESK_WIDE_ROW_COLUMNS];
    size_t n;
    size_t r;
    uint16_t rows;
} DeskWideRowCode;

/* The version of the archive: DESK_VERSION of the header that goes with it. */
size_t desk_version(void);

/* The smallest number of check bits for which a code of k data bits exists; refuses with 1. */
DeskCheckBits desk_check_bits(size_t k);

/* Whether this is a code; refuses with 1 to 6 and 21, as every question about a code does. */
DeskJudgement desk_judge(DeskCode code);

/* For each row: r times the ones in that row, less all ones of the matrix. */
DeskRowBalance desk_row_balance(DeskCode code);

/* The check bits that go with the data; refuses with 7. */
DeskCheckWord desk_write(DeskCode code, uint64_t data);

/* What is in the word as read, its syndrome, and the word mended where one flip explains it; refuses with 7. */
DeskReadWord desk_read(DeskCode code, uint64_t data, uint16_t check);

/* All sets of at most `limit` places that explain the word, into `list`, two bytes a set; refuses with 7, 11, 10. */
DeskListing desk_explain(DeskCode code, uint64_t data, uint16_t check, size_t limit, uint8_t *list, size_t list_length);

/*
 * Whether every error of two or more bits within one card of b places is flagged; refuses with 8, 9. Cards take b places
 * each from place 0 on, and begin again at place k: no card has data and check bits, and either part may end in a short
 * card.
 */
DeskCardCheck desk_cards(DeskCode code, size_t b);

/*
 * Mends the records from `start` up to but not `end` and notes each that is not clean, with the pass's stamp, behind the
 * `used` entries that the journal has in use, which stay; refuses with 12, 14, 17, 16, 13. The next pass in the same
 * journal is told the count that a done pass hands back; a refused pass leaves it as it was, and hands back 0. Of the
 * entries in use only the last one's stamp is read. In a new journal none is in use, whatever its bytes are.
 */
DeskPassAnswer desk_pass(DeskCode code, uint8_t *image, size_t image_length, size_t start, size_t end, uint8_t *journal,
                         size_t journal_length, size_t used, uint32_t stamp);

/* The same by the quick engine: the same answer, image and journal, on every code, image and journal. */
DeskPassAnswer desk_quick_pass(DeskCode code, uint8_t *image, size_t image_length, size_t start, size_t end,
                               uint8_t *journal, size_t journal_length, size_t used, uint32_t stamp);

/*
 * Puts an image back as it was read: from the last of the `used` entries that the journal has in use to the first, a record
 * that holds an entry's bytes as left gets its bytes as read; refuses with 12, 17, then 18 at the first entry that does not
 * match. After 18 the entries already put back stay, and nothing else is touched: not that entry's record, nor any entry
 * before it. No code is needed. Of an entry the record number and the bytes as left are compared, and nothing else of it is
 * judged; one whose bytes as read and as left are the same counts as put back where they match. The journal is only read.
 * After passes from a new journal, each told the true count in use, the image is as it was before the first of them.
 */
DeskPutBack desk_put_back(uint8_t *image, size_t image_length, const uint8_t *journal, size_t journal_length,
                          size_t used);

/*
 * The sheet of a station from its hours per device and the counts of its devices, of its words and of those mended. It
 * is yes exactly when the share is within the house limit, whose ends are inside; all three refuse with 19 alone, which
 * tells nothing. A NaN or an infinity is not finite. Minus zero is not below zero, so it may be a limit's figure; it is
 * not above zero, so it cannot be hours. A ceiling may be above 1, and a band's ends may be equal. Floats must round to
 * nearest and keep subnormals, as a program starts out.
 */

/* The limit is a ceiling: share <= high. */
DeskSheetAnswer desk_sheet_ceiling(double hours, size_t devices, size_t words, size_t mended, double high);

/* The limit is a band: low <= share and share <= high. */
DeskSheetAnswer desk_sheet_band(double hours, size_t devices, size_t words, size_t mended, double low, double high);

/* There is no limit: yes. */
DeskSheetAnswer desk_sheet_open(double hours, size_t devices, size_t words, size_t mended);

/*
 * Makes the code of k data bits and r check bits: of the numbers below 2^r the first k that have three ones, then five,
 * then seven and so on, within a count the smaller first. Every code that is made is accepted, and no accepted code of
 * the same k and r has fewer ones in all its columns. Refuses with 1, 2, 15, each of which tells nothing; 15 means that
 * r is below the check bits wanted for k.
 */
DeskMade desk_make(size_t k, size_t r);

/*
 * Words of ten bytes of three bits, which outlive a whole failed card: byte t is bits 3t to 3t + 2, data bytes 0 to 6,
 * check bytes 7 to 9. An error within one byte is put right, one within two bytes is flagged. Both refuse with 7 alone.
 */

/* The word of 30 bits with these data bits, which are its bits 0 to 20. */
DeskByteWriting desk_byte_write(uint64_t data);

/* What is in the word as read, and the word put right where an error within one byte explains it. */
DeskByteReading desk_byte_read(uint64_t word);

/*
 * The code word that differs from the word as read in any of the `count` places that `bad` names and, where none or one is
 * bad, in at most one place more; there is never a second. Place i below k is data bit i, place k + j check bit j. Their
 * order does not matter, and a bad place need not be wrong. With none bad it is the word that desk_read hands back with
 * verdicts 0 to 2. Refuses with 7, 22, 23, each of which tells nothing. `bad` is only read.
 */
DeskRecovered desk_recover(DeskCode code, uint64_t data, uint16_t check, const size_t *bad, size_t count);

/*
 * The bad places that two reads show, after a pattern and then its complement were written: those below n where the two
 * agree, however many, since a place that keeps what is written differs. Refuses with 7 for a stray bit in either read.
 */
DeskBadPlaces desk_find_bad(DeskCode code, uint64_t first_data, uint16_t first_check, uint64_t second_data,
                            uint16_t second_check);

/*
 * The wide edition: codes of up to 128 data bits, words in two halves, records of 18 bytes, entries of 46. Every question
 * that takes a code or makes one, with the refusals of the question above; 1, 7, 12, 13, 14, 16, 17 and 21 read this
 * edition's sizes. The edition belongs to the call: a wide code of 8 data bits has records of 18 bytes, and a code of
 * more than 64 data bits is refused with 1 by the functions above. One image and its journal keep to one edition.
 */

DeskCheckBits desk_wide_check_bits(size_t k);
DeskJudgement desk_wide_judge(DeskWideCode code);
DeskRowBalance desk_wide_row_balance(DeskWideCode code);
DeskCheckWord desk_wide_write(DeskWideCode code, uint64_t low, uint64_t high);
DeskWideReadWord desk_wide_read(DeskWideCode code, uint64_t low, uint64_t high, uint16_t check);

/* No list has more than 72 entries. */
DeskListing desk_wide_explain(DeskWideCode code, uint64_t low, uint64_t high, uint16_t check, size_t limit,
                              uint8_t *list, size_t list_length);
DeskCardCheck desk_wide_cards(DeskWideCode code, size_t b);
DeskPassAnswer desk_wide_pass(DeskWideCode code, uint8_t *image, size_t image_length, size_t start, size_t end,
                              uint8_t *journal, size_t journal_length, size_t used, uint32_t stamp);
DeskPassAnswer desk_wide_quick_pass(DeskWideCode code, uint8_t *image, size_t image_length, size_t start, size_t end,
                                    uint8_t *journal, size_t journal_length, size_t used, uint32_t stamp);
DeskPutBack desk_wide_put_back(uint8_t *image, size_t image_length, const uint8_t *journal, size_t journal_length,
                               size_t used);
DeskWideMade desk_wide_make(size_t k, size_t r);
DeskWideRecovered desk_wide_recover(DeskWideCode code, uint64_t low, uint64_t high, uint16_t check, const size_t *bad,
                                    size_t count);
DeskWideBadPlaces desk_wide_find_bad(DeskWideCode code, DeskWideWord first, DeskWideWord second);

/*
 * Codes with a set of rows, in both editions: every question that takes a code. Refused with 1, 2, 3 over all n columns, 20 and
 * 21, then as the question above is. The syndrome is the exclusive or of the columns of all set bits, and writing solves for
 * the check bits that make it 0. Verdict 3 is a syndrome that is not 0 and has an even count of ones within the set, 4 an
 * odd count and no column. Cards begin again at place n - r. A code that desk_judge accepts is answered the same here, with its
 * check columns behind its own and all r rows in the set. Images and journals are those of the edition.
 */

DeskJudgement desk_rows_judge(DeskRowCode code);
DeskRowBalance desk_rows_row_balance(DeskRowCode code);
DeskCheckWord desk_rows_write(DeskRowCode code, uint64_t data);
DeskReadWord desk_rows_read(DeskRowCode code, uint64_t data, uint16_t check);
DeskListing desk_rows_explain(DeskRowCode code, uint64_t data, uint16_t check, size_t limit, uint8_t *list,
                              size_t list_length);
DeskCardCheck desk_rows_cards(DeskRowCode code, size_t b);
DeskPassAnswer desk_rows_pass(DeskRowCode code, uint8_t *image, size_t image_length, size_t start, size_t end,
                              uint8_t *journal, size_t journal_length, size_t used, uint32_t stamp);
DeskPassAnswer desk_rows_quick_pass(DeskRowCode code, uint8_t *image, size_t image_length, size_t start, size_t end,
                                    uint8_t *journal, size_t journal_length, size_t used, uint32_t stamp);
DeskRecovered desk_rows_recover(DeskRowCode code, uint64_t data, uint16_t check, const size_t *bad, size_t count);
DeskBadPlaces desk_rows_find_bad(DeskRowCode code, uint64_t first_data, uint16_t first_check, uint64_t second_data,
                                 uint16_t second_check);

DeskJudgement desk_wide_rows_judge(DeskWideRowCode code);
DeskRowBalance desk_wide_rows_row_balance(DeskWideRowCode code);
DeskCheckWord desk_wide_rows_write(DeskWideRowCode code, uint64_t low, uint64_t high);
DeskWideReadWord desk_wide_rows_read(DeskWideRowCode code, uint64_t low, uint64_t high, uint16_t check);
DeskListing desk_wide_rows_explain(DeskWideRowCode code, uint64_t low, uint64_t high, uint16_t check, size_t limit,
                                   uint8_t *list, size_t list_length);
DeskCardCheck desk_wide_rows_cards(DeskWideRowCode code, size_t b);
DeskPassAnswer desk_wide_rows_pass(DeskWideRowCode code, uint8_t *image, size_t image_length, size_t start, size_t end,
                                   uint8_t *journal, size_t journal_length, size_t used, uint32_t stamp);
DeskPassAnswer desk_wide_rows_quick_pass(DeskWideRowCode code, uint8_t *image, size_t image_length, size_t start,
                                         size_t end, uint8_t *journal, size_t journal_length, size_t used,
                                         uint32_t stamp);
DeskWideRecovered desk_wide_rows_recover(DeskWideRowCode code, uint64_t low, uint64_t high, uint16_t check,
                                         const size_t *bad, size_t count);
DeskWideBadPlaces desk_wide_rows_find_bad(DeskWideRowCode code, DeskWideWord first, DeskWideWord second);

#ifdef __cplusplus
}
#endif

#endif
