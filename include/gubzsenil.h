/*
 * Gubzsenil: judges a finding, a formula said to be true of one model and false of another.
 *
 * Build the library with `tools/build --for desk library`, then link it on x86-64 Linux:
 *
 *     cc -Iinclude examples/desk.c target/staticlib/libgubzsenil.a -o desk
 *
 * or install it with `tools/install PREFIX`, and link it by pkg-config, where it is called gubzsenil. examples/desk.c is such a
 * program.
 */
#ifndef GUBZSENIL_H
#define GUBZSENIL_H

#include <stddef.h>
#include <stdint.h>

#ifdef __cplusplus
extern "C" {
#endif

/* The longest slice that is read, and the least work bytes that are asked for. */
#define GUBZSENIL_SLICE_BYTES 4096
#define GUBZSENIL_WORK_BYTES 65536

/* The first number of an answer: 1 to 9 refuse the input, 10 and 11 leave the finding unsettled, 12 and 13 refuse it. */
enum gubzsenil_result {
    GUBZSENIL_ACCEPTED = 0,       /* true of the first model, false of the second: no strong early bisimulation relates them */
    GUBZSENIL_TOO_LONG = 1,       /* a slice is longer than 4,096 bytes */
    GUBZSENIL_TRUNCATED = 2,      /* the bytes end early */
    GUBZSENIL_MALFORMED = 3,      /* a number is not in its one form */
    GUBZSENIL_UNKNOWN_KIND = 4,   /* no term, process or formula has this kind */
    GUBZSENIL_NAME_RANGE = 5,     /* a public name is over 16,383; reserved: no bytes hold one, and no verdict is 5 */
    GUBZSENIL_OUT_OF_SCOPE = 6,   /* a variable or an alias is not in scope */
    GUBZSENIL_TOO_DEEP = 7,       /* nested too deep */
    GUBZSENIL_TRAILING = 8,       /* bytes are left over */
    GUBZSENIL_WORK_TOO_SHORT = 9, /* fewer than 65,536 work bytes */
    GUBZSENIL_BUDGET_SPENT = 10,  /* judging takes more visits than the budget */
    GUBZSENIL_LIMIT_MET = 11,     /* a visit met a limit: too many threads, private names or nodes */
    GUBZSENIL_FALSE_OF_FIRST = 12,
    GUBZSENIL_TRUE_OF_BOTH = 13
};

typedef struct gubzsenil_answer {
    uint32_t result; /* one of the above */
    uint32_t slice;  /* after 1 to 8: 1 first model, 2 second model, 3 formula; else 0 */
    uint32_t place;  /* after 1 to 8: the offset of the offending number's first byte in that slice; else 0 */
    uint32_t count;  /* after 0 and 11 to 13: the visits made; after 10: the budget; else 0 */
} gubzsenil_answer;

/*
 * Judges the finding that the three slices are, within a budget of visits. It returns for every input, after at most as many
 * visits as the budget allows.
 *
 * Buffers. All four belong to the caller, and only for the time of the call: no pointer is kept, and nothing is allocated.
 * The slices are read and never written; they may overlap each other. The work bytes may not overlap any of them, and may hold
 * anything before. After the results 0 and 10 to 13 the first 65,536 are 0 and later ones as before; after 1 to 9 all are as
 * before.
 *
 * Pointers. Each must be good for as many bytes as are said. Nothing is read or written through the pointer of an empty slice:
 * any will do, and a null pointer is tried in the tests. (The proof begins with slices, and says nothing of pointers.)
 *
 * Threads. Nothing is kept between calls, and there is no shared state: calls may run at the same time, each with work bytes of
 * its own.
 *
 * Stack. Some 100 KB for a finding such as an ePassport's, and 280 KB the most that was measured, with an older kit, for formulas
 * and models nested as deep as they may be. That is measured and not proved: give a thread that calls it 1 MB.
 */
gubzsenil_answer gubzsenil_verdict(const uint8_t *first, size_t first_bytes,
                                   const uint8_t *second, size_t second_bytes,
                                   const uint8_t *formula, size_t formula_bytes,
                                   uint8_t *work, size_t work_bytes,
                                   uint32_t budget);

#ifdef __cplusplus
}
#endif

#endif
