/*
 * A desk program in C: judges the finding in three files, and prints the four numbers of the answer.
 *
 *     desk FIRST SECOND FORMULA [BUDGET]
 *
 * It exits 0 if the finding is accepted, 1 if it is not, and 2 if there is no answer.
 */
#include <stdio.h>
#include <stdlib.h>

#include "gubzsenil.h"

/* One byte more than a slice may have, so that a longer file is refused and not cut. */
#define FILE_BYTES (GUBZSENIL_SLICE_BYTES + 1)

/* The work bytes are lent for the time of a call, and a program may use the same ones for every call. */
static uint8_t work[GUBZSENIL_WORK_BYTES];

static size_t load(const char *name, uint8_t bytes[FILE_BYTES]) {
    FILE *file = fopen(name, "rb");
    if (file == NULL) {
        perror(name);
        exit(2);
    }
    size_t read = fread(bytes, 1, FILE_BYTES, file);
    if (ferror(file)) {
        perror(name);
        exit(2);
    }
    fclose(file);
    return read;
}

static uint32_t budget_of(const char *text) {
    char *end;
    unsigned long budget = strtoul(text, &end, 10);
    if (*text < '0' || *text > '9' || *end != '\0' || budget > UINT32_MAX) {
        fprintf(stderr, "the budget is a number from 0 to %lu\n", (unsigned long)UINT32_MAX);
        exit(2);
    }
    return (uint32_t)budget;
}

int main(int count, char **words) {
    static uint8_t first[FILE_BYTES], second[FILE_BYTES], formula[FILE_BYTES];
    if (count != 4 && count != 5) {
        fprintf(stderr, "usage: desk FIRST SECOND FORMULA [BUDGET]\n");
        return 2;
    }
    uint32_t budget = count == 5 ? budget_of(words[4]) : 1000000;
    size_t first_bytes = load(words[1], first);
    size_t second_bytes = load(words[2], second);
    size_t formula_bytes = load(words[3], formula);
    gubzsenil_answer answer = gubzsenil_verdict(first, first_bytes, second, second_bytes, formula, formula_bytes,
                                                work, sizeof work, budget);
    printf("%u %u %u %u\n", answer.result, answer.slice, answer.place, answer.count);
    return answer.result == GUBZSENIL_ACCEPTED ? 0 : 1;
}
