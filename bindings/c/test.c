/* Tests of wirambolo.h: lengths, answers, and what a call leaves of cell U and of a crystal. C99 and C++. `make -C bindings/c test` runs it,
 * with bindings/weights.txt as its argument. */

#include <inttypes.h>
#include <math.h>
#include <stdint.h>
#include <stdio.h>
#include <stdlib.h>
#include <string.h>

#include "wirambolo.h"

static int failures = 0;

#define CHECK(condition) check((condition), #condition, __LINE__)

static void check(int holds, const char *condition, int line)
{
    if (!holds) {
        fprintf(stderr, "line %d: %s\n", line, condition);
        failures++;
    }
}

/* ---- sets */

enum {
    SLOTS = 27, /* of cell U */
    LIST = 2,
    /* at most, which is what the crystal has */
    P = 2,
    S = 3,
    F = 4,
    G = 5,
    V = 7,
    B = 3 * P,
    MOST_SLOTS = F * B * B,
    MOST_WORK = 135 * P * P * P + 54 * P * P + 6 * P * S + 8 * P + 2
};

/* All that the five functions are handed, and what is written. */
struct set {
    size_t atoms, supercell, first, grid, vectors_count, list;
    uint8_t anchoring, form, symmetry, weights, shape;
    double cutoff, width;
    int64_t weight;
    double temperature;
    int64_t mesh[3], matrix[9], triplet[3], triplets[3 * LIST], addresses[3 * G], multiplicity[2 * S * P], p2s[P], s2p[S], bands[F];
    double vectors[3 * V], masses[P], frequencies[G * B], eigenvectors[2 * G * B * B], constants[27 * S * S * S];
    double first_weights[MOST_SLOTS], second_weights[MOST_SLOTS], read_strengths[MOST_SLOTS];
    uint8_t shortest[P * S * S], nonzero[S * S * S], flags[LIST * MOST_SLOTS];
    double strengths[LIST * MOST_SLOTS], totals[F], work[MOST_WORK];
    /* what is handed over as the length of each that has one; slots: of the arrays with an entry for each slot of one triplet. Those that
     * weights from a shape writes have each their own. */
    struct {
        size_t triplets, addresses, multiplicity, p2s, s2p, bands;
        size_t vectors, masses, frequencies, eigenvectors, constants, shortest, nonzero, slots, totals, work;
        size_t first_weights, second_weights, flags;
    } lengths;
};

static void fill(double *numbers, size_t count, double x)
{
    for (size_t n = 0; n < count; n++) {
        numbers[n] = x;
    }
}

/* All zero but the measures. The lengths of these measures, work two numbers longer than W; strengths, totals and work at -1.0. */
static struct set sized(size_t atoms, size_t supercell, size_t first, size_t grid, size_t vectors_count, uint8_t form)
{
    struct set s;
    memset(&s, 0, sizeof s);
    s.atoms = atoms;
    s.supercell = supercell;
    s.first = first;
    s.grid = grid;
    s.vectors_count = vectors_count;
    s.list = LIST;
    s.form = form;
    s.lengths.triplets = wirambolo_triplets_length(LIST);
    s.lengths.addresses = wirambolo_addresses_length(grid);
    s.lengths.vectors = wirambolo_vectors_length(vectors_count);
    s.lengths.multiplicity = wirambolo_multiplicity_length(atoms, supercell);
    s.lengths.p2s = s.lengths.masses = atoms;
    s.lengths.s2p = supercell;
    s.lengths.bands = s.lengths.totals = first;
    s.lengths.frequencies = wirambolo_frequencies_length(atoms, grid);
    s.lengths.eigenvectors = wirambolo_eigenvectors_length(atoms, grid);
    s.lengths.shortest = wirambolo_shortest_length(atoms, supercell);
    s.lengths.nonzero = wirambolo_nonzero_length(atoms, supercell, form);
    s.lengths.constants = wirambolo_constants_length(atoms, supercell, form);
    s.lengths.slots = wirambolo_slots(atoms, first);
    s.lengths.first_weights = s.lengths.second_weights = s.lengths.flags = s.lengths.slots;
    s.lengths.work = wirambolo_work_length(atoms, supercell) + 2;
    fill(s.strengths, LIST * s.lengths.slots, -1.0);
    fill(s.totals, s.lengths.totals, -1.0);
    fill(s.work, s.lengths.work, -1.0);
    return s;
}

static struct set cell_u(void)
{
    struct set s = sized(1, 1, 3, 1, 1, WIRAMBOLO_COMPACT);
    s.cutoff = 0.5;
    s.weight = 3;
    s.width = 0.25;
    for (size_t n = 0; n < 3; n++) {
        s.mesh[n] = 1;
        s.matrix[4 * n] = 1;
        s.eigenvectors[8 * n] = 1.0;
        s.bands[n] = (int64_t)n;
        s.frequencies[n] = (double)(1 << n);
    }
    s.multiplicity[0] = 1;
    s.masses[0] = 4.0;
    s.nonzero[0] = 1;
    s.constants[5] = 16.0;
    s.read_strengths[5] = 0.5;
    fill(s.first_weights, SLOTS, 2.0);
    return s;
}

/* Numbers between -1 and 1 with full mantissas, by the rule of bindings/rust/tests/common. */
static void spread(double *numbers, size_t count, uint64_t seed)
{
    for (size_t n = 0; n < count; n++) {
        seed = seed * UINT64_C(6364136223846793005) + UINT64_C(1442695040888963407);
        numbers[n] = (double)(seed >> 11) / 4503599627370496.0 - 1.0;
    }
}

static void positive(double *numbers, size_t count, uint64_t seed)
{
    spread(numbers, count, seed);
    for (size_t n = 0; n < count; n++) {
        numbers[n] = (numbers[n] < 0.0 ? -numbers[n] : numbers[n]) + 0.5;
    }
}

/* The crystal of bindings/rust/tests/common. Its measures all differ, so that no array can stand in for another. */
static struct set crystal(uint8_t form)
{
    static const int64_t mesh[3] = {2, 3, 4};
    static const int64_t matrix[9] = {1, 0, -1, 2, 1, 0, 0, -3, 1};
    static const int64_t triplets[3 * LIST] = {1, 2, 3, 0, 4, 2};
    static const int64_t addresses[3 * G] = {0, 0, 0, 1, 2, 3, -1, 0, 2, 1, 1, 1, 0, -2, 3};
    static const int64_t multiplicity[2 * S * P] = {1, 0, 2, 1, 3, 3, 1, 6, 2, 5, 1, 2};
    static const int64_t p2s[P] = {0, 2};
    static const int64_t s2p[S] = {0, 0, 2};
    static const int64_t bands[F] = {5, 0, 3, 3};
    struct set s = sized(P, S, F, G, V, form);
    s.cutoff = 0.625;
    s.weight = 2;
    memcpy(s.mesh, mesh, sizeof mesh);
    memcpy(s.matrix, matrix, sizeof matrix);
    memcpy(s.triplet, triplets, sizeof s.triplet);
    memcpy(s.triplets, triplets, sizeof triplets);
    memcpy(s.addresses, addresses, sizeof addresses);
    memcpy(s.multiplicity, multiplicity, sizeof multiplicity);
    memcpy(s.p2s, p2s, sizeof p2s);
    memcpy(s.s2p, s2p, sizeof s2p);
    memcpy(s.bands, bands, sizeof bands);
    spread(s.vectors, s.lengths.vectors, 1);
    positive(s.masses, s.lengths.masses, 2);
    positive(s.frequencies, s.lengths.frequencies, 3);
    spread(s.eigenvectors, s.lengths.eigenvectors, 4);
    spread(s.constants, s.lengths.constants, 5);
    positive(s.first_weights, s.lengths.slots, 6);
    spread(s.second_weights, s.lengths.slots, 7);
    for (size_t n = 0; n < s.lengths.shortest; n++) {
        s.shortest[n] = n % 4 == 1;
    }
    for (size_t n = 0; n < s.lengths.nonzero; n++) {
        s.nonzero[n] = n % 5 != 2;
    }
    for (size_t n = 0; n < s.lengths.slots; n++) {
        s.flags[n] = s.flags[s.lengths.slots + n] = n % 3 == 0;
    }
    return s;
}

/* ---- the five functions on a set */

/* An array and its length. */
#define LENT(s, array) (s)->array, (s)->lengths.array

/* An array with an entry for each slot of one triplet. */
#define SLOTTED(s, array) (s)->array, (s)->lengths.slots

/* What stands before the triplets, and what stands between them and the flags. */
#define BEFORE(s) \
    (s)->atoms, (s)->supercell, (s)->first, (s)->grid, (s)->vectors_count, (s)->anchoring, (s)->cutoff, (s)->form, \
    (s)->symmetry, (s)->mesh, (s)->matrix
#define TABLES(s) \
    LENT(s, addresses), LENT(s, vectors), LENT(s, multiplicity), LENT(s, p2s), LENT(s, s2p), LENT(s, masses), \
    LENT(s, bands), LENT(s, frequencies), LENT(s, eigenvectors), LENT(s, shortest), LENT(s, nonzero), LENT(s, constants)

static uint8_t triplet_door(struct set *s)
{
    return wirambolo_get_interaction_at_triplet(
        BEFORE(s), s->triplet, TABLES(s), SLOTTED(s, flags), SLOTTED(s, strengths), LENT(s, work));
}

static uint8_t list_door(struct set *s)
{
    size_t slots = LIST * s->lengths.slots;
    return wirambolo_get_interaction(
        BEFORE(s), s->list, LENT(s, triplets), TABLES(s), s->flags, slots, s->strengths, slots, LENT(s, work));
}

static uint8_t totals_door(struct set *s)
{
    size_t entries = s->weights == WIRAMBOLO_AT_FREQUENCY_POINT ? wirambolo_pairs(s->atoms) : s->lengths.slots;
    return wirambolo_imag_self_energy_at_triplet(
        s->atoms, s->first, s->grid, s->weights, s->triplet, LENT(s, frequencies), s->cutoff, s->flags, entries,
        SLOTTED(s, read_strengths), s->weight, s->temperature, s->first_weights, entries, s->second_weights, entries,
        LENT(s, totals));
}

static uint8_t joined_door(struct set *s)
{
    return wirambolo_joined_at_triplet(
        BEFORE(s), s->triplet, TABLES(s), SLOTTED(s, flags), s->weight, s->temperature, SLOTTED(s, first_weights),
        SLOTTED(s, second_weights), SLOTTED(s, strengths), LENT(s, totals), LENT(s, work));
}

static uint8_t weights_door(struct set *s)
{
    return wirambolo_integration_weights_at_triplet(
        s->atoms, s->first, s->grid, s->shape, s->width, s->triplet, LENT(s, bands), LENT(s, frequencies),
        LENT(s, first_weights), LENT(s, second_weights), LENT(s, flags));
}

/* ---- comparing by bits */

static int same(const double *numbers, const double *wanted, size_t count)
{
    return memcmp(numbers, wanted, count * sizeof (double)) == 0;
}

/* `rest` in each of one triplet's slots but number 5, which is (0, 1, 2). */
static int holds(const double *strengths, double at_5, double rest)
{
    double wanted[SLOTS];
    fill(wanted, SLOTS, rest);
    wanted[5] = at_5;
    return same(strengths, wanted, SLOTS);
}

static int totals_are(const struct set *s, double t0, double t1, double t2)
{
    double wanted[3];
    wanted[0] = t0;
    wanted[1] = t1;
    wanted[2] = t2;
    return same(s->totals, wanted, 3);
}

/* The first W entries of work at +0.0, the others as they were. */
static int work_cleared(const struct set *s)
{
    double wanted[MOST_WORK];
    fill(wanted, s->lengths.work, -1.0);
    fill(wanted, wirambolo_work_length(s->atoms, s->supercell), 0.0);
    return same(s->work, wanted, s->lengths.work);
}

/* Whether the call answers so and leaves every byte of the set, as for a set turned away. */
static int refuses(uint8_t (*door)(struct set *), struct set s, uint8_t answer)
{
    static struct set before, after;
    memcpy(&before, &s, sizeof s);
    memcpy(&after, &s, sizeof s);
    return door(&after) == answer && memcmp(&before, &after, sizeof before) == 0;
}

/* ---- the tests */

static void lengths(void)
{
    const size_t most = WIRAMBOLO_NO_LENGTH;
    CHECK(wirambolo_work_length(1, 1) == 203);
    CHECK(wirambolo_work_length(8, 64) == 75712);
    CHECK(wirambolo_slot(1, 0, 1, 2) == 5);
    CHECK(wirambolo_slot(2, 3, 4, 5) == (3 * 6 + 4) * 6 + 5);
    for (size_t p = 0; p < 10; p++) {
        size_t b = 3 * p;
        CHECK(wirambolo_bands(p) == b);
        CHECK(wirambolo_pairs(p) == b * b);
        for (size_t n = 0; n < 70; n++) {
            CHECK(wirambolo_slots(p, n) == n * b * b);
            CHECK(wirambolo_list_slots(p, 7, n) == n * 7 * b * b);
            CHECK(wirambolo_work_length(p, n) == 135 * p * p * p + 54 * p * p + 6 * p * n + 8 * p);
            CHECK(wirambolo_triplets_length(n) == 3 * n);
            CHECK(wirambolo_addresses_length(n) == 3 * n);
            CHECK(wirambolo_vectors_length(n) == 3 * n);
            CHECK(wirambolo_multiplicity_length(p, n) == 2 * n * p);
            CHECK(wirambolo_frequencies_length(p, n) == n * b);
            CHECK(wirambolo_eigenvectors_length(p, n) == 2 * n * b * b);
            CHECK(wirambolo_shortest_length(p, n) == p * n * n);
            CHECK(wirambolo_nonzero_length(p, n, WIRAMBOLO_COMPACT) == p * n * n);
            CHECK(wirambolo_nonzero_length(p, n, WIRAMBOLO_FULL) == n * n * n);
            CHECK(wirambolo_constants_length(p, n, WIRAMBOLO_COMPACT) == 27 * p * n * n);
            CHECK(wirambolo_constants_length(p, n, WIRAMBOLO_FULL) == 27 * n * n * n);
        }
    }

    /* The longest, and one more. */
    CHECK(wirambolo_times(1, WIRAMBOLO_LONGEST) == WIRAMBOLO_LONGEST);
    CHECK(wirambolo_times(1, WIRAMBOLO_LONGEST + 1) == most);
    CHECK(wirambolo_plus(1, WIRAMBOLO_LONGEST - 1) == WIRAMBOLO_LONGEST);
    CHECK(wirambolo_plus(1, WIRAMBOLO_LONGEST) == most);
    CHECK(wirambolo_plus(WIRAMBOLO_LONGEST, 1) == most);
    CHECK(wirambolo_plus(most, most) == most);
    CHECK(wirambolo_times(most, most) == most);

    /* Products that come round to a small number, or to 0, modulo a power of 2. */
    CHECK(wirambolo_bands(most / 3 + 1) == most);
    CHECK(wirambolo_pairs((most >> 1) + 1) == most);
    CHECK(wirambolo_work_length((most >> 1) + 1, 1) == most);
    CHECK(wirambolo_work_length(1, (most >> 1) + 1) == most);
    CHECK(wirambolo_work_length(most, most) == most);
    CHECK(wirambolo_slots(8, most / 4 + 1) == most);
    CHECK(wirambolo_list_slots(1, 1, most / 8 + 2) == most);
    CHECK(wirambolo_eigenvectors_length(1, (most >> 1) + 1) == most);
    CHECK(wirambolo_constants_length(1, (most >> 1) + 1, WIRAMBOLO_FULL) == most);
    CHECK(wirambolo_slot(1, most, 0, 0) == most);
    CHECK(wirambolo_slot(1, 0, most, 0) == most);
    CHECK(wirambolo_slot(1, 0, 0, most) == most);

    /* A measure of 0 gives 0 beside any other. */
    CHECK(wirambolo_work_length(0, most) == 0);
    CHECK(wirambolo_slots(most, 0) == 0);
    CHECK(wirambolo_list_slots(most, most, 0) == 0);
    CHECK(wirambolo_constants_length(0, most, WIRAMBOLO_COMPACT) == 0);

    /* An unknown form. */
    CHECK(wirambolo_nonzero_length(1, 1, 2) == most);
    CHECK(wirambolo_constants_length(1, 1, 255) == most);
}

static void accepted(void)
{
    struct set s = cell_u();
    CHECK(triplet_door(&s) == WIRAMBOLO_ACCEPTED);
    CHECK(holds(s.strengths, 0.5, 0.0));
    CHECK(totals_are(&s, -1.0, -1.0, -1.0));
    CHECK(work_cleared(&s));

    /* M1 */
    s = cell_u();
    CHECK(joined_door(&s) == WIRAMBOLO_ACCEPTED);
    CHECK(holds(s.strengths, 0.5, 0.0));
    CHECK(holds(s.strengths + SLOTS, -1.0, -1.0));
    CHECK(totals_are(&s, 3.0, 0.0, 0.0));
    CHECK(work_cleared(&s));

    /* M4, and M5's flagged slot */
    s = cell_u();
    s.flags[5] = 255;
    CHECK(joined_door(&s) == WIRAMBOLO_ACCEPTED);
    CHECK(holds(s.strengths, -1.0, 0.0));
    CHECK(totals_are(&s, 0.0, 0.0, 0.0));
    s.symmetry = WIRAMBOLO_SYMMETRIZED;
    CHECK(joined_door(&s) == WIRAMBOLO_ACCEPTED);
    CHECK(s.strengths[5] == 0.0 && s.strengths[7] == 0.5 / 6.0);

    /* M7 */
    s = cell_u();
    s.anchoring = WIRAMBOLO_AVERAGED;
    s.constants[5] = 48.0;
    CHECK(joined_door(&s) == WIRAMBOLO_ACCEPTED);
    CHECK(s.strengths[5] == 0.5 && s.strengths[11] == 0.5 && s.strengths[21] == 0.5);
    CHECK(totals_are(&s, 3.0, 3.0, 3.0));

    /* The full form is the compact one where S = P = 1. */
    s = cell_u();
    s.form = WIRAMBOLO_FULL;
    CHECK(joined_door(&s) == WIRAMBOLO_ACCEPTED);
    CHECK(holds(s.strengths, 0.5, 0.0));

    /* A list whose second triplet has slot 5 flagged. */
    s = cell_u();
    s.flags[SLOTS + 5] = 1;
    CHECK(list_door(&s) == WIRAMBOLO_ACCEPTED);
    CHECK(holds(s.strengths, 0.5, 0.0));
    CHECK(holds(s.strengths + SLOTS, -1.0, 0.0));
    CHECK(work_cleared(&s));

    /* Totals alone; at a frequency point the later bands' flag is shared. */
    s = cell_u();
    CHECK(totals_door(&s) == WIRAMBOLO_ACCEPTED);
    CHECK(totals_are(&s, 3.0, 0.0, 0.0));
    s.weights = WIRAMBOLO_AT_FREQUENCY_POINT;
    s.read_strengths[9 + 5] = 0.25;
    s.first_weights[5] = 4.0;
    CHECK(totals_door(&s) == WIRAMBOLO_ACCEPTED);
    CHECK(totals_are(&s, 6.0, 3.0, 0.0));
}

/* FNV-1a, 64 bits: where it starts, and what a byte makes of it. */
static const uint64_t undigested = UINT64_C(0xcbf29ce484222325);

static uint64_t digested_byte(uint64_t state, uint64_t byte)
{
    return (state ^ byte) * UINT64_C(0x100000001b3);
}

static uint64_t bits_of(double x)
{
    uint64_t bits;
    memcpy(&bits, &x, sizeof bits);
    return bits;
}

/* The bits of each number, lowest byte first. */
static uint64_t digested(uint64_t state, const double *numbers, size_t count)
{
    for (size_t n = 0; n < count; n++) {
        for (int byte = 0; byte < 8; byte++) {
            state = digested_byte(state, bits_of(numbers[n]) >> (8 * byte) & 0xff);
        }
    }
    return state;
}

/* The crystal in each of its settings. */
static void crystals(void)
{
    static const double temperatures[2] = {0.0, 1.75};
    uint64_t digest = undigested;
    for (unsigned n = 0; n < 16; n++) {
        struct set joined = crystal(n & 8 ? WIRAMBOLO_FULL : WIRAMBOLO_COMPACT);
        struct set other;
        size_t slots = joined.lengths.slots;
        joined.anchoring = n & 4 ? WIRAMBOLO_AVERAGED : WIRAMBOLO_PLAIN;
        joined.symmetry = n & 2 ? WIRAMBOLO_SYMMETRIZED : WIRAMBOLO_SYMMETRY_OFF;
        joined.temperature = temperatures[n & 1];
        other = joined;
        CHECK(joined_door(&joined) == WIRAMBOLO_ACCEPTED);
        CHECK(work_cleared(&joined));
        digest = digested(digest, joined.strengths, slots);
        digest = digested(digest, joined.totals, joined.lengths.totals);

        /* The other functions of strengths and totals agree with it. */
        CHECK(triplet_door(&other) == WIRAMBOLO_ACCEPTED);
        CHECK(same(other.strengths, joined.strengths, slots));
        memcpy(other.read_strengths, joined.strengths, slots * sizeof (double));
        CHECK(totals_door(&other) == WIRAMBOLO_ACCEPTED);
        CHECK(same(other.totals, joined.totals, joined.lengths.totals));
        CHECK(list_door(&other) == WIRAMBOLO_ACCEPTED);
        CHECK(same(other.strengths, joined.strengths, slots));
        memcpy(joined.triplet, joined.triplets + 3, sizeof joined.triplet);
        CHECK(joined_door(&joined) == WIRAMBOLO_ACCEPTED);
        CHECK(same(other.strengths + slots, joined.strengths, slots));
    }
    /* The digest of bindings/rust/tests/doors.rs: of the strengths and totals that the oracle (tools/rust/oracle) leaves. */
    CHECK(digest == UINT64_C(0xdb59cc90d6cf1dad));
}

/* Something in both weights and the flags. */
static void unweigh(struct set *s, double weight, uint8_t flag)
{
    fill(s->first_weights, MOST_SLOTS, weight);
    fill(s->second_weights, MOST_SLOTS, weight);
    memset(s->flags, flag, sizeof s->flags);
}

/* Whether weights from a shape accepts the set and leaves every byte of it but the entries that it writes. */
static int weighs(struct set *s)
{
    static struct set before;
    size_t slots = s->lengths.slots;
    memcpy(&before, s, sizeof before);
    if (weights_door(s) != WIRAMBOLO_ACCEPTED) {
        return 0;
    }
    memcpy(before.first_weights, s->first_weights, slots * sizeof (double));
    memcpy(before.second_weights, s->second_weights, slots * sizeof (double));
    memcpy(before.flags, s->flags, slots);
    return memcmp(&before, s, sizeof before) == 0;
}

/* The number with these bits; any NaN as any other. */
static int has_bits(double x, uint64_t bits)
{
    return x != x ? bits == UINT64_C(0x7ff8000000000000) : bits_of(x) == bits;
}

static double of_bits(uint64_t bits)
{
    double x;
    memcpy(&x, &bits, sizeof x);
    return x;
}

/* Every line of the file: shape, width, the three frequencies of a slot, and what it is left, numbers by their bits. The frequencies are those
 * of all bands at a leg's grid point, so that each slot is such a slot. bindings/python/test_wirambolo.py works the lines out from the formulas. */
static void weights_by_bits(const char *path)
{
    uint64_t width, frequencies[3], first, second;
    unsigned shape, flag;
    int read, lines = 0;
    FILE *file = fopen(path, "r");
    CHECK(file != NULL);
    if (file == NULL) {
        return;
    }
    while ((read = fscanf(
                file, "%u %" SCNx64 " %" SCNx64 " %" SCNx64 " %" SCNx64 " %" SCNx64 " %" SCNx64 " %u", &shape, &width,
                &frequencies[0], &frequencies[1], &frequencies[2], &first, &second, &flag)) == 8) {
        struct set s = sized(1, 1, 2, 3, 1, WIRAMBOLO_COMPACT);
        lines++;
        s.shape = (uint8_t)shape;
        s.width = of_bits(width);
        s.bands[0] = 2;
        for (int64_t leg = 0; leg < 3; leg++) {
            s.triplet[leg] = (leg + 2) % 3;
            fill(s.frequencies + 3 * s.triplet[leg], 3, of_bits(frequencies[leg]));
        }
        unweigh(&s, -1.0, 170);
        CHECK(weighs(&s));
        for (size_t n = 0; n < s.lengths.slots; n++) {
            CHECK(has_bits(s.first_weights[n], first));
            CHECK(has_bits(s.second_weights[n], second));
            CHECK(s.flags[n] == flag);
        }
    }
    CHECK(read == EOF);
    CHECK(lines == 31);
    fclose(file);
}

/* The crystal, whatever stands in the arrays before; and cell U. */
static void weights(void)
{
    static const uint8_t shapes[3] = {WIRAMBOLO_GAUSSIAN, WIRAMBOLO_LORENTZIAN, WIRAMBOLO_BOX};
    static const double widths[3] = {0.1, 0.1, 0.7};
    /* Of first weights, second weights and flags, from the formulas, as bindings/python/test_wirambolo.py works them out. */
    static const uint64_t digests[3] = {
        UINT64_C(0x1766c9332bee884b), UINT64_C(0x8452ca4e237460cd), UINT64_C(0xb15286598ba3d741)};
    struct set s;
    for (int n = 0; n < 3; n++) {
        for (int filled = 0; filled < 2; filled++) {
            uint64_t digest = undigested;
            s = crystal(WIRAMBOLO_COMPACT);
            s.shape = shapes[n];
            s.width = widths[n];
            unweigh(&s, filled ? (double)NAN : -1.0, filled ? 255 : 0);
            CHECK(weighs(&s));
            digest = digested(digest, s.first_weights, s.lengths.slots);
            digest = digested(digest, s.second_weights, s.lengths.slots);
            for (size_t slot = 0; slot < s.lengths.slots; slot++) {
                digest = digested_byte(digest, s.flags[slot]);
            }
            CHECK(digest == digests[n]);
        }
    }

    /* Frequencies 1, 2 and 4 under a box: 4 = 2 + 2 and 2 = 1 + 1 as first weights, 2 + 2 = 4 and 1 + 1 = 2 as second ones. */
    s = cell_u();
    s.shape = WIRAMBOLO_BOX;
    CHECK(weights_door(&s) == WIRAMBOLO_ACCEPTED);
    for (size_t b = 0; b < 3; b++) {
        for (size_t j = 0; j < 3; j++) {
            for (size_t k = 0; k < 3; k++) {
                size_t slot = wirambolo_slot(1, b, j, k);
                double first = b > 0 && j == b - 1 && k == b - 1 ? 2.0 : 0.0;
                double second = (j == b && k == b + 1 ? 2.0 : 0.0) - (k == b && j == b + 1 ? 2.0 : 0.0);
                CHECK(has_bits(s.first_weights[slot], bits_of(first)));
                CHECK(has_bits(s.second_weights[slot], bits_of(second)));
                CHECK(s.flags[slot] == (first == 0.0 && second == 0.0));
            }
        }
    }
    /* As they are, the functions that read them take them. */
    CHECK(joined_door(&s) == WIRAMBOLO_ACCEPTED);
    CHECK(totals_door(&s) == WIRAMBOLO_ACCEPTED);

    /* What overflows is kept, and turned away where it is read. */
    s = cell_u();
    s.shape = WIRAMBOLO_BOX;
    s.width = 5e-324;
    fill(s.frequencies, 3, 0.0);
    CHECK(weights_door(&s) == WIRAMBOLO_ACCEPTED);
    CHECK(s.first_weights[5] > 1e308 && s.second_weights[5] != s.second_weights[5] && s.flags[5] == 0);
    CHECK(refuses(joined_door, s, WIRAMBOLO_NOT_FINITE));
    CHECK(refuses(totals_door, s, WIRAMBOLO_NOT_FINITE));
}

/* Each answer of weights from a shape, for every shape. */
static void weights_refused(uint8_t shape)
{
    static const double not_finite[3] = {(double)NAN, (double)INFINITY, -(double)INFINITY};
    static const double not_above_zero[3] = {0.0, -0.0, -5e-324};
    struct set s;

    s = cell_u(), s.shape = shape;
    CHECK(weights_door(&s) == WIRAMBOLO_ACCEPTED);

    s = cell_u(), s.shape = shape, s.atoms = 0;
    CHECK(refuses(weights_door, s, WIRAMBOLO_MEASURE));
    s.atoms = 9;
    CHECK(refuses(weights_door, s, WIRAMBOLO_MEASURE));
    s = cell_u(), s.shape = shape, s.first = 0;
    CHECK(refuses(weights_door, s, WIRAMBOLO_MEASURE));
    s.first = 4;
    CHECK(refuses(weights_door, s, WIRAMBOLO_MEASURE));
    s = cell_u(), s.shape = shape, s.grid = 0;
    CHECK(refuses(weights_door, s, WIRAMBOLO_MEASURE));
    s.grid = 65537;
    CHECK(refuses(weights_door, s, WIRAMBOLO_MEASURE));

    /* One entry less and one more; measures within their limits. */
    for (size_t more = 0; more < 2; more++) {
        s = cell_u(), s.shape = shape, s.lengths.bands = 2 + 2 * more;
        CHECK(refuses(weights_door, s, WIRAMBOLO_LENGTH));
        s = cell_u(), s.shape = shape, s.lengths.frequencies = 2 + 2 * more;
        CHECK(refuses(weights_door, s, WIRAMBOLO_LENGTH));
        s = cell_u(), s.shape = shape, s.lengths.first_weights = SLOTS - 1 + 2 * more;
        CHECK(refuses(weights_door, s, WIRAMBOLO_LENGTH));
        s = cell_u(), s.shape = shape, s.lengths.second_weights = SLOTS - 1 + 2 * more;
        CHECK(refuses(weights_door, s, WIRAMBOLO_LENGTH));
        s = cell_u(), s.shape = shape, s.lengths.flags = SLOTS - 1 + 2 * more;
        CHECK(refuses(weights_door, s, WIRAMBOLO_LENGTH));
    }
    s = cell_u(), s.shape = shape, s.atoms = 8;
    CHECK(refuses(weights_door, s, WIRAMBOLO_LENGTH));
    s = cell_u(), s.shape = shape, s.grid = 65536;
    CHECK(refuses(weights_door, s, WIRAMBOLO_LENGTH));

    for (int n = 0; n < 3; n++) {
        s = cell_u(), s.shape = shape, s.triplet[n] = 1;
        CHECK(refuses(weights_door, s, WIRAMBOLO_INDEX));
        s.triplet[n] = -1;
        CHECK(refuses(weights_door, s, WIRAMBOLO_INDEX));
        s = cell_u(), s.shape = shape, s.bands[n] = 3;
        CHECK(refuses(weights_door, s, WIRAMBOLO_INDEX));
        s.bands[n] = -1;
        CHECK(refuses(weights_door, s, WIRAMBOLO_INDEX));
        s = cell_u(), s.shape = shape, s.frequencies[n] = not_finite[n];
        CHECK(refuses(weights_door, s, WIRAMBOLO_NOT_FINITE));
        s = cell_u(), s.shape = shape, s.width = not_finite[n];
        CHECK(refuses(weights_door, s, WIRAMBOLO_NOT_FINITE));
        s = cell_u(), s.shape = shape, s.width = not_above_zero[n];
        CHECK(refuses(weights_door, s, WIRAMBOLO_WIDTH));
        /* The lowest number, over the whole set: the last frequency. */
        s.frequencies[2] = not_finite[n];
        CHECK(refuses(weights_door, s, WIRAMBOLO_NOT_FINITE));
        s.triplet[n] = 1;
        CHECK(refuses(weights_door, s, WIRAMBOLO_INDEX));
        s.lengths.flags = 0;
        CHECK(refuses(weights_door, s, WIRAMBOLO_LENGTH));
        s.atoms = 0;
        CHECK(refuses(weights_door, s, WIRAMBOLO_MEASURE));
    }
    /* A frequency of a grid point outside the triplet; two points, and the arrays as long as they ask. */
    s = cell_u(), s.shape = shape, s.grid = 2, s.lengths.frequencies = 6;
    CHECK(weights_door(&s) == WIRAMBOLO_ACCEPTED);
    s.frequencies[5] = (double)NAN;
    CHECK(refuses(weights_door, s, WIRAMBOLO_NOT_FINITE));
}

static void refused(void)
{
    struct set s;

    s = cell_u(), s.atoms = 0;
    CHECK(refuses(triplet_door, s, WIRAMBOLO_MEASURE));
    CHECK(refuses(list_door, s, WIRAMBOLO_MEASURE));
    CHECK(refuses(totals_door, s, WIRAMBOLO_MEASURE));
    CHECK(refuses(joined_door, s, WIRAMBOLO_MEASURE));
    s = cell_u(), s.grid = SIZE_MAX;
    CHECK(refuses(joined_door, s, WIRAMBOLO_MEASURE));
    s = cell_u(), s.list = 0;
    CHECK(refuses(list_door, s, WIRAMBOLO_MEASURE));
    s = cell_u(), s.lengths.work = wirambolo_work_length(1, 1) - 1;
    CHECK(refuses(triplet_door, s, WIRAMBOLO_LENGTH));
    CHECK(refuses(list_door, s, WIRAMBOLO_LENGTH));
    CHECK(refuses(joined_door, s, WIRAMBOLO_LENGTH));
    s = cell_u(), s.lengths.totals = 2;
    CHECK(refuses(totals_door, s, WIRAMBOLO_LENGTH));
    /* M10 */
    s = cell_u(), s.multiplicity[0] = 0;
    CHECK(refuses(joined_door, s, WIRAMBOLO_INDEX));
    s = cell_u(), s.triplets[5] = 1;
    CHECK(refuses(list_door, s, WIRAMBOLO_INDEX));
    s = cell_u(), s.constants[26] = (double)NAN;
    CHECK(refuses(joined_door, s, WIRAMBOLO_NOT_FINITE));
    s = cell_u(), s.read_strengths[0] = (double)INFINITY;
    CHECK(refuses(totals_door, s, WIRAMBOLO_NOT_FINITE));
    s = cell_u(), s.mesh[2] = 0;
    CHECK(refuses(joined_door, s, WIRAMBOLO_MESH));
    s = cell_u(), s.masses[0] = -0.0;
    CHECK(refuses(joined_door, s, WIRAMBOLO_MASS));
    s = cell_u(), s.cutoff = -0.5;
    CHECK(refuses(joined_door, s, WIRAMBOLO_CUTOFF));
    /* M11 */
    s = cell_u(), s.temperature = -0.0;
    CHECK(refuses(joined_door, s, WIRAMBOLO_BATH));
    CHECK(refuses(totals_door, s, WIRAMBOLO_BATH));
    s = cell_u(), s.addresses[0] = 1, s.vectors[0] = 200000.0;
    CHECK(refuses(joined_door, s, WIRAMBOLO_PHASE));
    /* The lowest number, over the whole set. */
    s = cell_u(), s.masses[0] = 0.0, s.second_weights[26] = (double)NAN;
    CHECK(refuses(joined_door, s, WIRAMBOLO_NOT_FINITE));
}

static void unreadable(void)
{
    struct set s;

    s = cell_u(), s.anchoring = 2;
    CHECK(refuses(triplet_door, s, WIRAMBOLO_UNREADABLE));
    s = cell_u(), s.form = 255;
    CHECK(refuses(list_door, s, WIRAMBOLO_UNREADABLE));
    s = cell_u(), s.symmetry = 2;
    CHECK(refuses(joined_door, s, WIRAMBOLO_UNREADABLE));
    s = cell_u(), s.weights = 2;
    CHECK(refuses(totals_door, s, WIRAMBOLO_UNREADABLE));
    /* before 1 */
    s = cell_u(), s.form = 2, s.atoms = 0;
    CHECK(refuses(joined_door, s, WIRAMBOLO_UNREADABLE));
    s = cell_u(), s.weights = 128, s.grid = 0;
    CHECK(refuses(totals_door, s, WIRAMBOLO_UNREADABLE));
    s = cell_u(), s.shape = 3;
    CHECK(refuses(weights_door, s, WIRAMBOLO_UNREADABLE));
    s = cell_u(), s.shape = 255, s.atoms = 0, s.width = (double)NAN;
    CHECK(refuses(weights_door, s, WIRAMBOLO_UNREADABLE));
}

/* Null pointers of length 0. */
static void null_pointers(void)
{
    static const int64_t ones[9] = {1, 1, 1, 1, 1, 1, 1, 1, 1};
    CHECK(wirambolo_joined_at_triplet(
              1, 1, 1, 1, 1, 0, 0.0, 0, 0, ones, ones, ones, NULL, 0, NULL, 0, NULL, 0, NULL, 0, NULL, 0, NULL, 0,
              NULL, 0, NULL, 0, NULL, 0, NULL, 0, NULL, 0, NULL, 0, NULL, 0, 1, 0.0, NULL, 0, NULL, 0, NULL, 0, NULL, 0,
              NULL, 0)
          == WIRAMBOLO_LENGTH);
    CHECK(wirambolo_get_interaction_at_triplet(
              1, 1, 1, 1, 1, 0, 0.0, 0, 0, ones, ones, ones, NULL, 0, NULL, 0, NULL, 0, NULL, 0, NULL, 0, NULL, 0,
              NULL, 0, NULL, 0, NULL, 0, NULL, 0, NULL, 0, NULL, 0, NULL, 0, NULL, 0, NULL, 0)
          == WIRAMBOLO_LENGTH);
    CHECK(wirambolo_get_interaction(
              1, 1, 1, 1, 1, 0, 0.0, 0, 0, ones, ones, 1, NULL, 0, NULL, 0, NULL, 0, NULL, 0, NULL, 0, NULL, 0, NULL, 0,
              NULL, 0, NULL, 0, NULL, 0, NULL, 0, NULL, 0, NULL, 0, NULL, 0, NULL, 0, NULL, 0)
          == WIRAMBOLO_LENGTH);
    CHECK(wirambolo_imag_self_energy_at_triplet(
              1, 1, 1, 0, ones, NULL, 0, 0.0, NULL, 0, NULL, 0, 1, 0.0, NULL, 0, NULL, 0, NULL, 0)
          == WIRAMBOLO_LENGTH);
    CHECK(wirambolo_integration_weights_at_triplet(
              1, 1, 1, 0, 1.0, ones, NULL, 0, NULL, 0, NULL, 0, NULL, 0, NULL, 0)
          == WIRAMBOLO_LENGTH);
}

static void names(void)
{
    CHECK(strcmp(wirambolo_answer_name(0), "accepted") == 0);
    CHECK(strcmp(wirambolo_answer_name(9), "phase") == 0);
    CHECK(strcmp(wirambolo_answer_name(13), "width") == 0);
    CHECK(strcmp(wirambolo_answer_name(255), "unreadable") == 0);
    CHECK(strcmp(wirambolo_answer_name(10), "unknown") == 0);
}

int main(int count, char **arguments)
{
    if (count != 2) {
        fprintf(stderr, "usage: %s weights.txt\n", arguments[0]);
        return EXIT_FAILURE;
    }
    lengths();
    accepted();
    crystals();
    weights_by_bits(arguments[1]);
    weights();
    for (uint8_t shape = WIRAMBOLO_GAUSSIAN; shape <= WIRAMBOLO_BOX; shape++) {
        weights_refused(shape);
    }
    refused();
    unreadable();
    null_pointers();
    names();
    printf("tests of wirambolo.h: %s\n", failures == 0 ? "passed" : "failed");
    return failures == 0 ? EXIT_SUCCESS : EXIT_FAILURE;
}
