/* The lines of tests/worked.txt that begin with `wide`, asked of the archive. */
#ifndef WORKED_WIDE_H
#define WORKED_WIDE_H

#include "worked_text.h"

/* What the wide questions are about, and the buffers that the desk writes to. */
static DeskWideCode wide_code;
static uint8_t wide_image[DESK_WIDE_IMAGE + DESK_WIDE_RECORD], wide_journal[512], wide_list[DESK_WIDE_LONGEST_LIST];
static size_t wide_length;

/* Data in hex, up to 32 digits, in two halves; where it ends, NULL where there is none. */
static const char *halves(const char *at, uint64_t *low, uint64_t *high) {
    char digits[33];
    int more = 0;
    if (sscanf(at, " %32[0-9A-Fa-f]%n", digits, &more) != 1) {
        return NULL;
    }
    *low = *high = 0;
    for (const char *digit = digits; *digit != '\0'; digit++) {
        unsigned value = 0;
        sscanf((const char[]){*digit, '\0'}, "%x", &value);
        *high = *high << 4 | *low >> 60;
        *low = *low << 4 | value;
    }
    return at + more;
}

static const char *set_wide_words(const char *at) {
    uint64_t low, high;
    uint16_t check;
    int more;
    const char *behind;
    wide_length = 0;
    while ((behind = halves(at, &low, &high)) != NULL && sscanf(behind, " %" SCNu16 "%n", &check, &more) == 1 &&
           wide_length < DESK_WIDE_IMAGE) {
        uint8_t *record = wide_image + wide_length;
        for (int i = 0; i < 8; i++) {
            record[i] = (uint8_t)(low >> (8 * i));
            record[8 + i] = (uint8_t)(high >> (8 * i));
        }
        record[16] = (uint8_t)check;
        record[17] = (uint8_t)(check >> 8);
        wide_length += DESK_WIDE_RECORD;
        at = behind + more;
    }
    return at;
}

/* A line that says what the next wide questions are about: whether it does. */
static int set_wide(const char *line) {
    int after = 0;
    size_t length;
    if (sscanf(line, "code %zu %zu:%n", &wide_code.k, &wide_code.r, &after) == 2 && after > 0) {
        return is_end(read_columns(line + after, wide_code.columns, DESK_WIDE_COLUMNS));
    }
    if (sscanf(line, "image %zu bytes%n", &length, &after) == 1 && after > 0 && length <= sizeof wide_image) {
        memset(wide_image, 0, length);
        wide_length = length;
        return is_end(line + after);
    }
    if (strncmp(line, "image ", 6) == 0) {
        return is_end(set_wide_words(line + 6));
    }
    return strncmp(line, "journal", 7) == 0 && is_end(read_bytes(line + 7, wide_journal, sizeof wide_journal));
}

static void ask_wide_make(size_t k, size_t r) {
    DeskWideMade a = desk_wide_make(k, r);
    wide_code = a.code;
    printf(" %zu %zu %zu", a.number, wide_code.k, wide_code.r);
    print_columns(wide_code.columns, DESK_WIDE_COLUMNS);
}

/* Data as one number of up to 32 digits, and check bits. */
static void print_wide(size_t number, size_t told, DeskWideWord word) {
    printf(" %zu %zu ", number, told);
    word.high ? printf("%" PRIX64 "%016" PRIX64, word.high, word.low) : printf("%" PRIX64, word.low);
    printf(" %d", word.check);
}

/* The bad places stand behind the word. */
static void ask_wide_recover(uint64_t low, uint64_t high, uint16_t check, const char *places) {
    size_t bad[MOST_BAD];
    size_t count = read_places(places, bad);
    DeskWideRecovered a = desk_wide_recover(wide_code, low, high, check, bad, count);
    print_wide(a.number, a.told, a.word);
}

/* The questions whose data comes first: write, read, explain, recover and find. */
static void ask_wide_word(const char *question, const char *at) {
    uint64_t low, high;
    uint16_t check;
    size_t limit, room;
    int more = 0;
    DeskWideWord second = {0, 0, 0};
    if ((at = halves(at, &low, &high)) == NULL) {
        printf(" is no question");
    } else if (strcmp(question, "write") == 0) {
        DeskCheckWord a = desk_wide_write(wide_code, low, high);
        printf(" %zu %zu %d", a.number, a.told, a.check);
    } else if (strcmp(question, "read") == 0 && sscanf(at, " %" SCNu16, &check) == 1) {
        DeskWideReadWord a = desk_wide_read(wide_code, low, high, check);
        printf(" %zu %zu %zu %zu ", a.number, a.told, a.verdict, a.place);
        a.word.high ? printf("%" PRIX64 "%016" PRIX64, a.word.high, a.word.low) : printf("%" PRIX64, a.word.low);
        printf(" %d %d", a.word.check, a.syndrome);
    } else if (strcmp(question, "explain") == 0 && sscanf(at, " %" SCNu16 " %zu %zu", &check, &limit, &room) == 3 &&
               room <= sizeof wide_list) {
        memset(wide_list, FILL, sizeof wide_list);
        DeskListing a = desk_wide_explain(wide_code, low, high, check, limit, wide_list, room);
        print_list(a, wide_list, sizeof wide_list);
    } else if (strcmp(question, "recover") == 0 && sscanf(at, " %" SCNu16 "%n", &check, &more) == 1) {
        ask_wide_recover(low, high, check, at + more);
    } else if (strcmp(question, "find") == 0 && sscanf(at, " %" SCNu16 "%n", &check, &more) == 1 &&
               (at = halves(at + more, &second.low, &second.high)) != NULL && sscanf(at, " %" SCNu16, &second.check) == 1) {
        DeskWideBadPlaces a = desk_wide_find_bad(wide_code, (DeskWideWord){low, high, check}, second);
        print_wide(a.number, a.told, a.word);
    } else {
        printf(" is no question");
    }
}

/* Prints what is answered to the question before a line's `=`. */
static void ask_wide(const char *line) {
    char question[16] = "";
    int after = 0;
    size_t a, b, c, used;
    uint32_t stamp;
    sscanf(line, "%15s%n", question, &after);
    const char *at = line + after;
    if (strcmp(question, "wanted") == 0 && sscanf(at, "%zu %zu", &a, &b) == 2) {
        print_wanted(desk_wide_check_bits, a, b);
    } else if (strcmp(question, "make") == 0 && sscanf(at, "%zu %zu", &a, &b) == 2) {
        ask_wide_make(a, b);
    } else if (strcmp(question, "judge") == 0) {
        DeskJudgement answer = desk_wide_judge(wide_code);
        printf(" %zu %zu", answer.number, answer.told);
    } else if (strcmp(question, "ones") == 0) {
        print_ones(wide_code.columns, wide_code.k, wide_code.r);
    } else if (strcmp(question, "balance") == 0) {
        print_rows(desk_wide_row_balance(wide_code));
    } else if (strcmp(question, "cards") == 0 && sscanf(at, "%zu", &a) == 1) {
        print_cards(desk_wide_cards(wide_code, a));
    } else if (strcmp(question, "pass") == 0 &&
               sscanf(at, "%zu %zu %zu %zu %" SCNu32, &a, &b, &c, &used, &stamp) == 5 && c <= sizeof wide_journal) {
        print_tally(desk_wide_pass(wide_code, wide_image, wide_length, a, b, wide_journal, c, used, stamp));
    } else if (strcmp(question, "back") == 0 && sscanf(at, "%zu %zu", &a, &used) == 2 && a <= sizeof wide_journal) {
        DeskPutBack answer = desk_wide_put_back(wide_image, wide_length, wide_journal, a, used);
        printf(" %zu %zu %zu", answer.number, answer.told, answer.count);
    } else if (strcmp(question, "left") == 0) {
        print_bytes(" %02X", wide_image, wide_length);
    } else if (strcmp(question, "noted") == 0) {
        print_bytes(" %02X", wide_journal, changed(wide_journal, sizeof wide_journal));
    } else {
        ask_wide_word(question, at);
    }
}

#endif
