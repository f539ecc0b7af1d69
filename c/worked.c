/* Prints tests/worked.txt (on standard input) again, each question with the answer of the archive. */
#include "codes.h"
#include "worked_rows.h"
#include "worked_text.h"
#include "worked_wide.h"

enum { LINE = 1024 };

/* What the questions are about, and the buffers that the desk writes to. */
static DeskCode code;
static uint8_t image[DESK_IMAGE + DESK_RECORD], journal[512], list[DESK_LONGEST_LIST];
static size_t image_length;

static const char *set_words(const char *at) {
    uint64_t data;
    uint16_t check;
    int more;
    image_length = 0;
    while (sscanf(at, "%" SCNx64 " %" SCNu16 "%n", &data, &check, &more) == 2 && image_length < DESK_IMAGE) {
        put_record(image + image_length, data, check);
        image_length += DESK_RECORD;
        at += more;
    }
    return at;
}

/* A line that says what the next questions are about: whether it does. */
static int set(const char *line) {
    int after = 0;
    size_t length;
    if (sscanf(line, "code %zu %zu:%n", &code.k, &code.r, &after) == 2 && after > 0) {
        return is_end(read_columns(line + after, code.columns, DESK_COLUMNS));
    }
    if (sscanf(line, "image %zu bytes%n", &length, &after) == 1 && after > 0 && length <= sizeof image) {
        memset(image, 0, length);
        image_length = length;
        return is_end(line + after);
    }
    if (strncmp(line, "image ", 6) == 0) {
        return is_end(set_words(line + 6));
    }
    return strncmp(line, "journal", 7) == 0 && is_end(read_bytes(line + 7, journal, sizeof journal));
}

/* The next questions are about the code that is made. */
static void ask_make(size_t k, size_t r) {
    DeskMade a = desk_make(k, r);
    code = a.code;
    printf(" %zu %zu %zu", a.number, code.k, code.r);
    print_columns(code.columns, DESK_COLUMNS);
}

/* Answers a question about a code; whether it is one. */
static int ask_code(const char *line) {
    size_t a, b;
    if (sscanf(line, "wanted %zu %zu", &a, &b) == 2) {
        print_wanted(desk_check_bits, a, b);
    } else if (sscanf(line, "make %zu %zu", &a, &b) == 2) {
        ask_make(a, b);
    } else if (strcmp(line, "judge ") == 0) {
        DeskJudgement answer = desk_judge(code);
        printf(" %zu %zu", answer.number, answer.told);
    } else if (strcmp(line, "ones ") == 0) {
        print_ones(code.columns, code.k, code.r);
    } else if (strcmp(line, "balance ") == 0) {
        print_rows(desk_row_balance(code));
    } else if (sscanf(line, "cards %zu", &a) == 1) {
        print_cards(desk_cards(code, a));
    } else {
        return 0;
    }
    return 1;
}

/* The bad places stand behind the word. */
static void ask_recover(uint64_t data, uint16_t check, const char *places) {
    size_t bad[MOST_BAD];
    size_t count = read_places(places, bad);
    DeskRecovered a = desk_recover(code, data, check, bad, count);
    printf(" %zu %zu %" PRIX64 " %d", a.number, a.told, a.data, a.check);
}

/* Answers a question about a word; whether it is one. */
static int ask_word(const char *line) {
    size_t limit, room;
    uint64_t data, other;
    uint16_t check, others;
    int after = 0;
    if (sscanf(line, "write %" SCNx64, &data) == 1) {
        DeskCheckWord answer = desk_write(code, data);
        printf(" %zu %zu %d", answer.number, answer.told, answer.check);
    } else if (sscanf(line, "read %" SCNx64 " %" SCNu16, &data, &check) == 2) {
        print_read(desk_read(code, data, check));
    } else if (sscanf(line, "explain %" SCNx64 " %" SCNu16 " %zu %zu", &data, &check, &limit, &room) == 4 &&
               room <= sizeof list) {
        memset(list, FILL, sizeof list);
        DeskListing answer = desk_explain(code, data, check, limit, list, room);
        print_list(answer, list, sizeof list);
    } else if (sscanf(line, "recover %" SCNx64 " %" SCNu16 "%n", &data, &check, &after) == 2) {
        ask_recover(data, check, line + after);
    } else if (sscanf(line, "find %" SCNx64 " %" SCNu16 " %" SCNx64 " %" SCNu16, &data, &check, &other, &others) == 4) {
        DeskBadPlaces answer = desk_find_bad(code, data, check, other, others);
        printf(" %zu %zu %" PRIX64 " %d", answer.number, answer.told, answer.data, answer.check);
    } else {
        return 0;
    }
    return 1;
}

/* Answers a question about image and journal; whether it is one. */
static int ask_image(const char *line) {
    size_t start, end, room, used;
    uint32_t stamp;
    if (sscanf(line, "pass %zu %zu %zu %zu %" SCNu32, &start, &end, &room, &used, &stamp) == 5 &&
        room <= sizeof journal) {
        print_tally(desk_pass(code, image, image_length, start, end, journal, room, used, stamp));
    } else if (sscanf(line, "back %zu %zu", &room, &used) == 2 && room <= sizeof journal) {
        DeskPutBack a = desk_put_back(image, image_length, journal, room, used);
        printf(" %zu %zu %zu", a.number, a.told, a.count);
    } else if (strcmp(line, "left ") == 0) {
        print_bytes(" %02X", image, image_length);
    } else if (strcmp(line, "noted ") == 0) {
        print_bytes(" %02X", journal, changed(journal, sizeof journal));
    } else {
        return 0;
    }
    return 1;
}

/* Prints what is answered to the question before a line's `=`. */
static void ask(const char *line) {
    if (!ask_code(line) && !ask_word(line) && !ask_image(line)) {
        printf(" is no question");
    }
}

int main(void) {
    char line[LINE];
    while (fgets(line, sizeof line, stdin) != NULL) {
        char *answer = line[0] == '#' ? NULL : strchr(line, '=');
        int is_wide = strncmp(line, "wide ", 5) == 0, is_rows = strncmp(line, "rows ", 5) == 0;
        if (line[0] == '#' || line[0] == '\n') {
            fputs(line, stdout);
        } else if (answer == NULL) {
            int is_known = is_wide ? set_wide(line + 5) : is_rows ? set_rows(line + 5) : set(line);
            fputs(line, stdout);
            fputs(is_known ? "" : "is about nothing\n", stdout);
        } else {
            *answer = '\0';
            printf("%s=", line);
            is_wide ? ask_wide(line + 5) : is_rows ? ask_rows(line + 5) : ask(line);
            putchar('\n');
        }
    }
    return 0;
}
