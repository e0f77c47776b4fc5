/*
 * Cell U of the key cases, its frequencies 3, 1 and 2: weights and flags from a box of half-width 0.25, with them strengths and
 * totals by the joined function; prints its key. A set that is turned away prints `refused N`, and the exit status is 1.
 * `make -C bindings/c` builds and runs it. From the top of the repository, by hand:
 *
 *     gcc -std=c99 -Wall -Wextra -pedantic -Iinclude -o target/example bindings/c/example.c target/staticlib/libwirambolo_c.a
 *     target/example
 */

#include <inttypes.h>
#include <stdint.h>
#include <stdio.h>
#include <stdlib.h>
#include <string.h>

#include "wirambolo.h"

enum {
    ATOMS = 1,
    SUPERCELL = 1,
    FIRST = 3,
    GRID = 1,
    VECTORS = 1,
    BANDS = 3 * ATOMS,
    SLOTS = FIRST * BANDS * BANDS
};

/* An array of any length as the functions take it: the pointer, and then the length. */
#define SLICE(array) (array), sizeof (array) / sizeof (array)[0]

/* The bits of x; every NaN counts as one. */
static uint64_t bits_of(double x)
{
    uint64_t bits;
    if (x != x) {
        return UINT64_C(0x7ff8000000000000);
    }
    memcpy(&bits, &x, sizeof bits);
    return bits;
}

/* The slots whose flag is not set, by b, then k, then j; then the totals. */
static void print_key(const uint8_t *flags, const double *strengths, const double *totals)
{
    printf("bands %d\n", FIRST);
    for (size_t b = 0; b < FIRST; b++) {
        for (size_t k = 0; k < BANDS; k++) {
            for (size_t j = 0; j < BANDS; j++) {
                size_t slot = wirambolo_slot(ATOMS, b, j, k);
                if (flags[slot] == 0) {
                    printf("slot %zu %zu %zu %016" PRIx64 "\n", b, j, k, bits_of(strengths[slot]));
                }
            }
        }
    }
    for (size_t b = 0; b < FIRST; b++) {
        printf("total %zu %016" PRIx64 "\n", b, bits_of(totals[b]));
    }
}

int main(void)
{
    static const int64_t mesh[3] = {1, 1, 1};
    static const int64_t matrix[9] = {1, 0, 0, 0, 1, 0, 0, 0, 1};
    static const int64_t triplet[3] = {0, 0, 0};
    static const int64_t addresses[3 * GRID] = {0, 0, 0};
    static const double vectors[3 * VECTORS] = {0.0, 0.0, 0.0};
    static const int64_t multiplicity[2 * SUPERCELL * ATOMS] = {1, 0};
    static const int64_t p2s[ATOMS] = {0};
    static const int64_t s2p[SUPERCELL] = {0};
    static const double masses[ATOMS] = {4.0};
    static const int64_t bands[FIRST] = {0, 1, 2};
    static const double frequencies[GRID * BANDS] = {3.0, 1.0, 2.0};
    static const uint8_t shortest[ATOMS * SUPERCELL * SUPERCELL] = {0};
    static const uint8_t nonzero[ATOMS * SUPERCELL * SUPERCELL] = {1};
    static double eigenvectors[2 * GRID * BANDS * BANDS];
    static double constants[27 * ATOMS * SUPERCELL * SUPERCELL];
    static uint8_t flags[SLOTS];
    static double first_weights[SLOTS];
    static double second_weights[SLOTS];
    static double strengths[SLOTS];
    static double totals[FIRST];
    size_t work_length = wirambolo_work_length(ATOMS, SUPERCELL);
    double *work = (double *)malloc(work_length * sizeof (double));
    uint8_t answer;

    if (work == NULL) {
        return 1;
    }

    /* What is not set here is zero. */
    for (size_t n = 0; n < BANDS; n++) {
        eigenvectors[2 * (n * BANDS + n)] = 1.0;
    }
    constants[9 * 0 + 3 * 1 + 2] = 16.0;

    answer = wirambolo_integration_weights_at_triplet(
        ATOMS, FIRST, GRID, WIRAMBOLO_BOX, 0.25, triplet, SLICE(bands), SLICE(frequencies),
        SLICE(first_weights), SLICE(second_weights), SLICE(flags));
    if (answer == WIRAMBOLO_ACCEPTED) {
        answer = wirambolo_joined_at_triplet(
            ATOMS, SUPERCELL, FIRST, GRID, VECTORS,
            WIRAMBOLO_PLAIN, 0.5, WIRAMBOLO_COMPACT, WIRAMBOLO_SYMMETRIZED,
            mesh, matrix, triplet, SLICE(addresses),
            SLICE(vectors), SLICE(multiplicity), SLICE(p2s), SLICE(s2p), SLICE(masses),
            SLICE(bands), SLICE(frequencies), SLICE(eigenvectors),
            SLICE(shortest), SLICE(nonzero), SLICE(constants), SLICE(flags),
            3, 1.0, SLICE(first_weights), SLICE(second_weights),
            SLICE(strengths), SLICE(totals), work, work_length);
    }
    free(work);
    if (answer != WIRAMBOLO_ACCEPTED) {
        printf("refused %u\n", (unsigned)answer);
        return 1;
    }
    print_key(flags, strengths, totals);
    return 0;
}
