/* The lines of tests/worked.txt that begin with `rows`, asked of the archive: codes with a set of rows. */
#ifndef WORKED_ROWS_H
#define WORKED_ROWS_H

#include "worked_text.h"

static DeskRowCode row_code;
static uint8_t row_list[DESK_LONGEST_LIST];

/* A line that says what the next such questions are about, n, r, the set and the columns: whether it does. */
static int set_rows(const char *line) {
    int after = 0;
    return sscanf(line, "code %zu %zu %" SCNu16 ":%n", &row_code.n, &row_code.r, &row_code.rows, &after) == 3 &&
           after > 0 && is_end(read_columns(line + after, row_code.columns, DESK_ROW_COLUMNS));
}

/* Prints what is answered to the question before a line's `=`. */
static void ask_rows(const char *line) {
    uint64_t data;
    uint16_t check;
    size_t a, b;
    if (strcmp(line, "judge ") == 0) {
        DeskJudgement answer = desk_rows_judge(row_code);
        printf(" %zu %zu", answer.number, answer.told);
    } else if (strcmp(line, "balance ") == 0) {
        print_rows(desk_rows_row_balance(row_code));
    } else if (sscanf(line, "write %" SCNx64, &data) == 1) {
        DeskCheckWord answer = desk_rows_write(row_code, data);
        printf(" %zu %zu %d", answer.number, answer.told, answer.check);
    } else if (sscanf(line, "read %" SCNx64 " %" SCNu16, &data, &check) == 2) {
        print_read(desk_rows_read(row_code, data, check));
    } else if (sscanf(line, "explain %" SCNx64 " %" SCNu16 " %zu %zu", &data, &check, &a, &b) == 4 &&
               b <= sizeof row_list) {
        memset(row_list, FILL, sizeof row_list);
        DeskListing answer = desk_rows_explain(row_code, data, check, a, row_list, b);
        print_list(answer, row_list, sizeof row_list);
    } else if (sscanf(line, "cards %zu", &a) == 1) {
        print_cards(desk_rows_cards(row_code, a));
    } else {
        printf(" is no question");
    }
}

#endif
