/*
 * The boundary to C, as include/gubzsenil.h tells it: the answer's four numbers, the work bytes and their neighbours, empty
 * slices, overlapping slices, and calls at the same time. Exits 0 if all is as it is told.
 */
#include <pthread.h>
#include <stdio.h>
#include <stdlib.h>
#include <string.h>

#include "gubzsenil.h"

/* Case 1 of the rules: nil, an output, and "no output on name 0". */
static const uint8_t nil[] = {0};
static const uint8_t sends[] = {2, 0, 0, 0, 0, 0};
static const uint8_t silent[] = {1, 3, 0, 0, 0, 0, 0, 0, 0};

static int failed = 0;

static void expect(const char *what, int holds) {
    if (!holds) {
        printf("FAILED: %s\n", what);
        failed = 1;
    }
}

static int is(gubzsenil_answer a, uint32_t result, uint32_t slice, uint32_t place, uint32_t count) {
    return a.result == result && a.slice == slice && a.place == place && a.count == count;
}

static int all(const uint8_t *bytes, size_t count, uint8_t value) {
    for (size_t i = 0; i < count; i++)
        if (bytes[i] != value)
            return 0;
    return 1;
}

/* Work bytes on the heap with nothing around them, so that a checker of memory sees the first byte too far. */
static uint8_t *lent(size_t bytes) {
    uint8_t *work = malloc(bytes == 0 ? 1 : bytes);
    if (work == NULL)
        exit(2);
    memset(work, 165, bytes);
    return work;
}

static void numbers(void) {
    uint8_t *work = lent(GUBZSENIL_WORK_BYTES);
    size_t room = GUBZSENIL_WORK_BYTES;
    expect("case 1 is accepted", is(gubzsenil_verdict(nil, 1, sends, 6, silent, 9, work, room, 1000000), 0, 0, 0, 5));
    expect("case 2: false of the first", is(gubzsenil_verdict(sends, 6, nil, 1, silent, 9, work, room, 1000000), 12, 0, 0, 5));
    expect("case 3: true of both", is(gubzsenil_verdict(nil, 1, nil, 1, silent, 9, work, room, 1000000), 13, 0, 0, 4));
    expect("case 4: budget 4", is(gubzsenil_verdict(nil, 1, sends, 6, silent, 9, work, room, 4), 10, 0, 0, 4));
    expect("case 4: budget 5", is(gubzsenil_verdict(nil, 1, sends, 6, silent, 9, work, room, 5), 0, 0, 0, 5));
    expect("the largest budget", is(gubzsenil_verdict(nil, 1, sends, 6, silent, 9, work, room, UINT32_MAX), 0, 0, 0, 5));
    expect("the formula ends early", is(gubzsenil_verdict(nil, 1, sends, 6, silent, 8, work, room, 5), 2, 3, 8, 0));
    free(work);
}

static void work_bytes(void) {
    size_t room = GUBZSENIL_WORK_BYTES + 7;
    uint8_t *work = lent(room);
    expect("a refusal", is(gubzsenil_verdict(nil, 1, sends, 5, silent, 9, work, room, 5), 2, 2, 5, 0));
    expect("a refusal leaves all work bytes", all(work, room, 165));
    gubzsenil_verdict(nil, 1, sends, 6, silent, 9, work, room, 5);
    expect("a judgement clears 65,536 work bytes", all(work, GUBZSENIL_WORK_BYTES, 0));
    expect("and leaves the others", all(work + GUBZSENIL_WORK_BYTES, 7, 165));
    free(work);
    work = lent(GUBZSENIL_WORK_BYTES - 1);
    expect("a short buffer", is(gubzsenil_verdict(nil, 1, sends, 6, silent, 9, work, GUBZSENIL_WORK_BYTES - 1, 5), 9, 0, 0, 0));
    expect("a short buffer is left", all(work, GUBZSENIL_WORK_BYTES - 1, 165));
    free(work);
}

static void empty_slices(void) {
    uint8_t *work = lent(GUBZSENIL_WORK_BYTES);
    size_t room = GUBZSENIL_WORK_BYTES;
    expect("an empty first model", is(gubzsenil_verdict(NULL, 0, sends, 6, silent, 9, work, room, 5), 2, 1, 0, 0));
    expect("an empty second model", is(gubzsenil_verdict(nil, 1, NULL, 0, silent, 9, work, room, 5), 2, 2, 0, 0));
    expect("an empty formula", is(gubzsenil_verdict(nil, 1, sends, 6, NULL, 0, work, room, 5), 2, 3, 0, 0));
    expect("no work bytes", is(gubzsenil_verdict(nil, 1, sends, 6, silent, 9, NULL, 0, 5), 9, 0, 0, 0));
    expect("nothing at all", is(gubzsenil_verdict(NULL, 0, NULL, 0, NULL, 0, NULL, 0, 0), 9, 0, 0, 0));
    expect("one slice for all three", is(gubzsenil_verdict(sends, 6, sends, 6, sends, 6, work, room, 5), 2, 3, 6, 0));
    free(work);
}

/* The same calls from several threads, each with work bytes of its own. */
static void *caller(void *wrong) {
    uint8_t *work = lent(GUBZSENIL_WORK_BYTES);
    for (int i = 0; i < 200; i++)
        if (!is(gubzsenil_verdict(nil, 1, sends, 6, silent, 9, work, GUBZSENIL_WORK_BYTES, 1000), 0, 0, 0, 5))
            *(int *)wrong = 1;
    free(work);
    return NULL;
}

static void threads(void) {
    pthread_t thread[4];
    int wrong[4] = {0};
    for (int i = 0; i < 4; i++)
        if (pthread_create(&thread[i], NULL, caller, &wrong[i]) != 0)
            exit(2);
    for (int i = 0; i < 4; i++)
        pthread_join(thread[i], NULL);
    expect("four threads at the same time", !wrong[0] && !wrong[1] && !wrong[2] && !wrong[3]);
}

int main(void) {
    numbers();
    work_bytes();
    empty_slices();
    threads();
    printf("the boundary to C: %s\n", failed ? "not as it is told" : "as it is told");
    return failed;
}
