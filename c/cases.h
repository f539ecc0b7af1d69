/* For the C tests: a line for each case, and their counts. */
#ifndef CASES_H
#define CASES_H

#include <stddef.h>
#include <stdio.h>

static size_t passed;
static size_t failed;

/* Prints one case and counts it. */
static void expect(const char *name, int right) {
    printf("%s %s\n", right ? "ok  " : "FAIL", name);
    if (right) {
        passed++;
    } else {
        failed++;
    }
}

/* Prints the counts; the exit status of the program. */
static int finish(void) {
    printf("%zu passed, %zu failed\n", passed, failed);
    return failed != 0;
}

#endif
