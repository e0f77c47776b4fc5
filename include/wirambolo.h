/*
 * wirambolo.h: three-phonon interaction strengths and band totals, for C99 and C++.
 *
 * Five functions:
 *   wirambolo_get_interaction_at_triplet       the strengths of one triplet
 *   wirambolo_get_interaction                  the strengths of a list of triplets
 *   wirambolo_imag_self_energy_at_triplet      the totals of one triplet, from its strengths
 *   wirambolo_joined_at_triplet                the strengths and the totals of one triplet
 *   wirambolo_integration_weights_at_triplet   the weights and the flags of one triplet, from a shape
 *
 * Link with libwirambolo_c.a (made by `tools/build wirambolo_c`, in target/staticlib), which needs
 * nothing but memcpy and memset of the C library.
 *
 *
 * WHAT IS PROMISED
 *
 * For all values, contents and lengths; there is no precondition on them:
 * - The call ends, and reads and writes no entry outside the arrays it is lent.
 * - The answer is 0 if the set is worked through, and otherwise says why it is not (ANSWERS).
 * - If the answer is not 0, no array is changed.
 * - If the answer is 0, every entry of the arrays that the function writes has the bits that the definitions give
 *   (crates/phonon/specs; weights from a shape: crates/integration_weights/specs); any NaN counts as equal to any other.
 * - An array whose parameter is const is only read.
 * This is proved: crates/wirambolo_c/src/lib.rt, whose `ensures` name crates/wirambolo_c/specs/Foreign.antt,
 * which names those definitions; docs/CLAIMS.md says what is trusted. Besides, nothing is allocated and
 * nothing kept from one call to the next, so that several threads may call at once.
 *
 *
 * WHAT IS ASKED OF THE CALLER
 *
 * - A pointer is aligned for its type and has as many entries behind it as the length that follows it. With
 *   length 0 it is not followed, and may be null.
 * - mesh, matrix and triplet have no length beside them: behind the pointer stand 3, 9 and 3 entries, and it is never
 *   null, whatever the call answers.
 * - An array that is written (strengths, totals, work, but not the strengths of totals alone; flags, first_weights
 *   and second_weights of weights from a shape) shares no entry with any other array of the call. Arrays that are
 *   only read may share entries.
 * - No other thread changes the arrays during the call, nor looks at those that are written.
 * - The machine rounds to nearest and keeps subnormal numbers, as it does when a C program starts. (gcc and clang
 *   link a program otherwise with -ffast-math or -Ofast: subnormal numbers then count as zero.)
 *
 *
 * ANSWERS
 *
 *     0  accepted    the set is worked through
 *     1  measure     a measure is beyond its limits
 *     2  length      an array has the wrong length, or work is too short
 *     3  index       an entry of triplet, triplets, p2s, s2p or bands, or a range of vectors in multiplicity,
 *                    lies outside what it points into
 *     4  not finite  a double for reading is infinite or a NaN, whether the work would read it or not
 *     5  mesh        an entry of addresses, mesh or matrix is beyond its limits
 *     6  mass        a mass is zero (-0.0 too) or below
 *     7  cutoff      the cutoff is below zero (-0.0 is not)
 *     8  bath        the weight is beyond its limits, or the temperature has its sign bit set (-0.0 too)
 *     9  phase       a phase 2*pi*(q . vector) is not within -1,048,576 to 1,048,576: of the q of a leg and a
 *                    vector that multiplicity names, or of the sum of the three q (symmetrized: in any of the
 *                    six orders of the legs) and the first vector of supercell atom p2s[i] and atom 0
 *                    (phases_ok in crates/phonon/specs/Refusal.antt)
 *    13  width       the width is zero (-0.0 too) or below
 *   255  unreadable  a choice is none of its enum's numbers
 *
 * 255 comes before all others. Of 1 to 13 the lowest that applies is given, over the whole set. A function
 * tests what it is handed: only those with a bath give 8, totals alone never gives 5, 6 and 9, and weights from a
 * shape never 5 to 9; it alone gives 13.
 *
 *
 * MEASURES                                                                  limits, else 1
 *
 *   P  atoms          atoms of the primitive cell                           1 to 8
 *   S  supercell      atoms of the supercell                                1 to 64
 *   F  first          first bands wanted; a repeated band counts again      1 to 3*P
 *   G  grid           grid points                                           1 to 65,536
 *   V  vectors_count  shortest vectors                                      1 to 65,536
 *      list           triplets of a list                                    1 to 4,096
 *
 *   B = 3*P, the bands.
 *   R, the rows of the force constants: P if the form is compact, S if it is full.
 *   Slot (b, j, k): position b of `bands`, at the triplet's first grid point; band j at its second, band k at its
 *   third. Its number is (b*B + j)*B + k.
 *
 *
 * CHOICES AND SINGLE VALUES
 *
 *   anchoring    enum wirambolo_anchoring: the force constants of three atoms are anchored at the first of them,
 *                or at each in turn and averaged
 *   form         enum wirambolo_form: the force constants have a row for each atom of the primitive cell, or of
 *                the supercell
 *   symmetry     enum wirambolo_symmetry: the legs are taken in their own order, or the mean of all six is taken
 *   weights      enum wirambolo_weights: flags and weights have an entry for each slot, or, at a frequency point,
 *                for each pair of later bands
 *   shape        enum wirambolo_shape: what stands for the delta function of energy conservation, a Gaussian of a
 *                width, a Lorentzian of a half-width or a box of a half-width
 *   width        the shape's, in the unit of the frequencies: finite (4), above zero (13), which -0.0 is not
 *   cutoff       frequencies at or below it are cut off: finite (4), not below zero (7)
 *   weight       the triplet's weight: 1 to 2,147,483,647 (8)
 *   temperature  in the unit of the frequencies: finite (4), sign bit not set (8); 0.0 is allowed
 *
 *
 * ARRAYS
 *
 * Each but mesh, matrix and triplet is followed by its length in entries, `NAME_length`. The length must be the one
 * below, else 2. In brackets behind the values stands the answer to others. A byte is set if it is not 0.
 *
 *   name            length      entry, and what it holds                                   values
 *   mesh            3           [d]                          divisions in direction d       1 to 4,096 (5)
 *   matrix          9           [3*k + d]                    row k of the q matrix          -4,096 to 4,096 (5)
 *   triplet         3           [l]                          grid point of leg l            0 to G - 1 (3)
 *   triplets        3*list      [3*t + l]                    the same of triplet t          0 to G - 1 (3)
 *   addresses       3*G         [3*g + d]                    address of grid point g        -1,048,576 to 1,048,576 (5)
 *   vectors         3*V         [3*v + d]                    shortest vector v              finite (4)
 *   multiplicity    2*S*P       [2*(j*P + i)]                how many vectors lead from     at least 1 (3)
 *                                                            atom i to supercell atom j
 *                               [2*(j*P + i) + 1]            the first of them              at least 0, and with the
 *                                                                                           count at most V (3)
 *   p2s             P           [i]                          atom i as supercell atom       0 to S - 1 (3)
 *   s2p             S           [j]                          the supercell atom that j      0 to S - 1 (3)
 *                                                            is an image of
 *   masses          P           [i]                          mass of atom i                 finite (4), above zero (6)
 *   bands           F           [b]                          first band at position b       0 to B - 1 (3)
 *   frequencies     G*B         [g*B + n]                    of band n at grid point g      finite (4)
 *   eigenvectors    2*G*B*B     [2*((g*B + m)*B + n)]        real part of component m       finite (4)
 *                                                            (3*atom + direction) of
 *                                                            band n at grid point g
 *                               [2*((g*B + m)*B + n) + 1]    its imaginary part             finite (4)
 *   shortest        P*S*S       [(i*S + j)*S + k]            atom i, supercell atoms j, k:  any byte
 *                                                            set if all are shortest
 *   nonzero         R*S*S       [(r*S + j)*S + k]            row r, supercell atoms j, k:   any byte
 *                                                            passed if not set
 *   constants       27*R*S*S    [((r*S + j)*S + k)*27        force constant (l, m, n) of    finite (4)
 *                               + 9*l + 3*m + n]             row r, supercell atoms j, k
 *   flags           F*B*B       [(b*B + j)*B + k]            set if the slot is left out    any byte
 *   first_weights   F*B*B       [(b*B + j)*B + k]            g1 of the slot                 finite (4)
 *   second_weights  F*B*B       [(b*B + j)*B + k]            g2 - g3 of the slot            finite (4)
 *   strengths       F*B*B       [(b*B + j)*B + k]            strength of the slot           written; before the call any
 *   totals          F           [b]                          total of position b            written; before the call any
 *   work            at least W                               room to work in                written; before the call any
 *
 *   W = 135*P*P*P + 54*P*P + 6*P*S + 8*P. A call that answers 0 leaves the first W entries of work at +0.0 and
 *   those behind them as they were.
 *
 *   In a list, flags and strengths have list*F*B*B entries; those of triplet t begin at t*F*B*B.
 *   In totals alone, the strengths are only read and must be finite (4); at a frequency point, flags,
 *   first_weights and second_weights have B*B entries, [j*B + k], for all first bands alike.
 *   In weights from a shape, flags, first_weights and second_weights are written; before the call any. The other
 *   functions only read them.
 *
 *   q of a leg at grid point g: component k is the sum over d of
 *   matrix[3*k + d]*(addresses[3*g + d]/mesh[d]).
 */

#ifndef WIRAMBOLO_H
#define WIRAMBOLO_H

#include <stddef.h>
#include <stdint.h>

#ifdef __cplusplus
extern "C" {
#endif

/* ---- choices; a parameter of type uint8_t takes one of these */

enum wirambolo_anchoring {
    WIRAMBOLO_PLAIN = 0,
    WIRAMBOLO_AVERAGED = 1
};

enum wirambolo_form {
    WIRAMBOLO_COMPACT = 0,
    WIRAMBOLO_FULL = 1
};

enum wirambolo_symmetry {
    WIRAMBOLO_SYMMETRY_OFF = 0,
    WIRAMBOLO_SYMMETRIZED = 1
};

enum wirambolo_weights {
    WIRAMBOLO_PER_SLOT = 0,
    WIRAMBOLO_AT_FREQUENCY_POINT = 1
};

enum wirambolo_shape {
    WIRAMBOLO_GAUSSIAN = 0,
    WIRAMBOLO_LORENTZIAN = 1,
    WIRAMBOLO_BOX = 2
};

/* ---- answers */

enum wirambolo_answer {
    WIRAMBOLO_ACCEPTED = 0,
    WIRAMBOLO_MEASURE = 1,
    WIRAMBOLO_LENGTH = 2,
    WIRAMBOLO_INDEX = 3,
    WIRAMBOLO_NOT_FINITE = 4,
    WIRAMBOLO_MESH = 5,
    WIRAMBOLO_MASS = 6,
    WIRAMBOLO_CUTOFF = 7,
    WIRAMBOLO_BATH = 8,
    WIRAMBOLO_PHASE = 9,
    WIRAMBOLO_WIDTH = 13,
    WIRAMBOLO_UNREADABLE = 255
};

/* ---- the five functions */

/*
 * One triplet. Answers 0 to 7, 9 or 255.
 *
 * Accepted, it writes the strength of every slot whose flag is not set: 0.0 if one of its three frequencies is at or
 * below the cutoff, else the squared magnitude of the slot's amplitude over the product of the three
 * frequencies. Slots whose flag is set stay as they were if symmetry is off, and become 0.0 if symmetrized.
 */
uint8_t wirambolo_get_interaction_at_triplet(
    size_t atoms,
    size_t supercell,
    size_t first,
    size_t grid,
    size_t vectors_count,
    uint8_t anchoring,
    double cutoff,
    uint8_t form,
    uint8_t symmetry,
    const int64_t mesh[3],
    const int64_t matrix[9],
    const int64_t triplet[3],
    const int64_t *addresses,
    size_t addresses_length,
    const double *vectors,
    size_t vectors_length,
    const int64_t *multiplicity,
    size_t multiplicity_length,
    const int64_t *p2s,
    size_t p2s_length,
    const int64_t *s2p,
    size_t s2p_length,
    const double *masses,
    size_t masses_length,
    const int64_t *bands,
    size_t bands_length,
    const double *frequencies,
    size_t frequencies_length,
    const double *eigenvectors,
    size_t eigenvectors_length,
    const uint8_t *shortest,
    size_t shortest_length,
    const uint8_t *nonzero,
    size_t nonzero_length,
    const double *constants,
    size_t constants_length,
    const uint8_t *flags,
    size_t flags_length,
    double *strengths,
    size_t strengths_length,
    double *work,
    size_t work_length);

/*
 * A list of triplets. Answers 0 to 7, 9 or 255.
 *
 * The whole list is tested before anything is written; one triplet that is turned away turns away the list. Accepted,
 * each triplet's part of the strengths is what the first function leaves of it. All use the one work array.
 */
uint8_t wirambolo_get_interaction(
    size_t atoms,
    size_t supercell,
    size_t first,
    size_t grid,
    size_t vectors_count,
    uint8_t anchoring,
    double cutoff,
    uint8_t form,
    uint8_t symmetry,
    const int64_t mesh[3],
    const int64_t matrix[9],
    size_t list,
    const int64_t *triplets,
    size_t triplets_length,
    const int64_t *addresses,
    size_t addresses_length,
    const double *vectors,
    size_t vectors_length,
    const int64_t *multiplicity,
    size_t multiplicity_length,
    const int64_t *p2s,
    size_t p2s_length,
    const int64_t *s2p,
    size_t s2p_length,
    const double *masses,
    size_t masses_length,
    const int64_t *bands,
    size_t bands_length,
    const double *frequencies,
    size_t frequencies_length,
    const double *eigenvectors,
    size_t eigenvectors_length,
    const uint8_t *shortest,
    size_t shortest_length,
    const uint8_t *nonzero,
    size_t nonzero_length,
    const double *constants,
    size_t constants_length,
    const uint8_t *flags,
    size_t flags_length,
    double *strengths,
    size_t strengths_length,
    double *work,
    size_t work_length);

/*
 * Totals alone: the totals of one triplet from strengths that are handed in. Answers 0 to 4, 7, 8 or 255.
 *
 * Accepted, it writes every total: the sum from 0.0, in the order k and then j, over the slots (b, j, k) whose flag is
 * not set and whose two later frequencies lie above the cutoff, of
 *     (((n1 + n2) + 1.0)*g1 + (n1 - n2)*g2)*strength*weight,
 * n1 and n2 the occupations 1/(exp(frequency/temperature) - 1) of the later bands, g1 and g2 the slot's first and
 * second weight; at temperature 0.0, of g1*strength*weight.
 */
uint8_t wirambolo_imag_self_energy_at_triplet(
    size_t atoms,
    size_t first,
    size_t grid,
    uint8_t weights,
    const int64_t triplet[3],
    const double *frequencies,
    size_t frequencies_length,
    double cutoff,
    const uint8_t *flags,
    size_t flags_length,
    const double *strengths,
    size_t strengths_length,
    int64_t weight,
    double temperature,
    const double *first_weights,
    size_t first_weights_length,
    const double *second_weights,
    size_t second_weights_length,
    double *totals,
    size_t totals_length);

/*
 * One triplet and its totals joined. Answers 0 to 9 or 255.
 *
 * Accepted, the strengths are what the first function leaves, and the totals are summed from them as above, with an entry
 * of the weights for each slot. A strength that comes out infinite or a NaN goes into its total.
 */
uint8_t wirambolo_joined_at_triplet(
    size_t atoms,
    size_t supercell,
    size_t first,
    size_t grid,
    size_t vectors_count,
    uint8_t anchoring,
    double cutoff,
    uint8_t form,
    uint8_t symmetry,
    const int64_t mesh[3],
    const int64_t matrix[9],
    const int64_t triplet[3],
    const int64_t *addresses,
    size_t addresses_length,
    const double *vectors,
    size_t vectors_length,
    const int64_t *multiplicity,
    size_t multiplicity_length,
    const int64_t *p2s,
    size_t p2s_length,
    const int64_t *s2p,
    size_t s2p_length,
    const double *masses,
    size_t masses_length,
    const int64_t *bands,
    size_t bands_length,
    const double *frequencies,
    size_t frequencies_length,
    const double *eigenvectors,
    size_t eigenvectors_length,
    const uint8_t *shortest,
    size_t shortest_length,
    const uint8_t *nonzero,
    size_t nonzero_length,
    const double *constants,
    size_t constants_length,
    const uint8_t *flags,
    size_t flags_length,
    int64_t weight,
    double temperature,
    const double *first_weights,
    size_t first_weights_length,
    const double *second_weights,
    size_t second_weights_length,
    double *strengths,
    size_t strengths_length,
    double *totals,
    size_t totals_length,
    double *work,
    size_t work_length);

/*
 * Weights from a shape: both weights and the flag of each slot of one triplet, as the functions above read them.
 * Answers 0 to 4, 13 or 255.
 *
 * Accepted, it writes every entry of first_weights, second_weights and flags. Of slot (b, j, k), with f0 the frequency
 * of band bands[b] at the first grid point, f1 of band j at the second and f2 of band k at the third, and
 *     x = the shape at (f0 - f1) - f2,   y = the shape at (f0 + f1) - f2,   z = the shape at (f0 - f1) + f2,
 * the first weight is x, the second y - z, and the flag 1 if x, y and z are all zero, else 0. At a distance d a shape
 * of width w is
 *     Gaussian     0.0 if |d| > 8*w, else (1/exp((t*t)/2))*(c/w) with t = d/w, c the double nearest 1/sqrt(2*pi);
 *     Lorentzian   (w/(d*d + w*w))*c, c the double nearest 1/pi;
 *     box          1/(2*w) if |d| <= w, else 0.0.
 * Each operation is rounded once, and exp is that of crates/phonon/specs/Exp.antt. What overflows is kept:
 * a weight may come out infinite, and a second weight a NaN; the functions that read weights then answer 4.
 */
uint8_t wirambolo_integration_weights_at_triplet(
    size_t atoms,
    size_t first,
    size_t grid,
    uint8_t shape,
    double width,
    const int64_t triplet[3],
    const int64_t *bands,
    size_t bands_length,
    const double *frequencies,
    size_t frequencies_length,
    double *first_weights,
    size_t first_weights_length,
    double *second_weights,
    size_t second_weights_length,
    uint8_t *flags,
    size_t flags_length);

/* ---- lengths
 *
 * Each is exact for all arguments if it is at most WIRAMBOLO_LONGEST, the most numbers of 8 bytes whose bytes can be
 * counted, so that a length times sizeof (double) does not overflow. A greater one, or one of an unknown form, is
 * WIRAMBOLO_NO_LENGTH. Measures within their limits never give it.
 */

/* SIZE_MAX: no array has so many entries. */
#define WIRAMBOLO_NO_LENGTH ((size_t)-1)
#define WIRAMBOLO_LONGEST (((size_t)-1) / 8)

/* a*b */
static inline size_t wirambolo_times(size_t a, size_t b)
{
    if (a == 0 || b == 0) {
        return 0;
    }
    return a <= WIRAMBOLO_LONGEST / b ? a * b : WIRAMBOLO_NO_LENGTH;
}

/* a + b */
static inline size_t wirambolo_plus(size_t a, size_t b)
{
    return a <= WIRAMBOLO_LONGEST && b <= WIRAMBOLO_LONGEST - a ? a + b : WIRAMBOLO_NO_LENGTH;
}

/* B = 3*P */
static inline size_t wirambolo_bands(size_t atoms)
{
    return wirambolo_times(3, atoms);
}

/* B*B: flags, first_weights and second_weights at a frequency point */
static inline size_t wirambolo_pairs(size_t atoms)
{
    return wirambolo_times(wirambolo_bands(atoms), wirambolo_bands(atoms));
}

/* F*B*B: flags, strengths, first_weights and second_weights of one triplet */
static inline size_t wirambolo_slots(size_t atoms, size_t first)
{
    return wirambolo_times(first, wirambolo_pairs(atoms));
}

/* list*F*B*B: flags and strengths of a list */
static inline size_t wirambolo_list_slots(size_t atoms, size_t first, size_t list)
{
    return wirambolo_times(list, wirambolo_slots(atoms, first));
}

/* (b*B + j)*B + k: the number of slot (b, j, k) */
static inline size_t wirambolo_slot(size_t atoms, size_t b, size_t j, size_t k)
{
    size_t bands = wirambolo_bands(atoms);
    return wirambolo_plus(wirambolo_times(wirambolo_plus(wirambolo_times(b, bands), j), bands), k);
}

/* W = 135*P*P*P + 54*P*P + 6*P*S + 8*P: work, at least */
static inline size_t wirambolo_work_length(size_t atoms, size_t supercell)
{
    size_t square = wirambolo_times(atoms, atoms);
    size_t work = wirambolo_times(135, wirambolo_times(square, atoms));
    work = wirambolo_plus(work, wirambolo_times(54, square));
    work = wirambolo_plus(work, wirambolo_times(6, wirambolo_times(atoms, supercell)));
    return wirambolo_plus(work, wirambolo_times(8, atoms));
}

/* 3*list */
static inline size_t wirambolo_triplets_length(size_t list)
{
    return wirambolo_times(3, list);
}

/* 3*G */
static inline size_t wirambolo_addresses_length(size_t grid)
{
    return wirambolo_times(3, grid);
}

/* 3*V */
static inline size_t wirambolo_vectors_length(size_t vectors_count)
{
    return wirambolo_times(3, vectors_count);
}

/* 2*S*P */
static inline size_t wirambolo_multiplicity_length(size_t atoms, size_t supercell)
{
    return wirambolo_times(2, wirambolo_times(supercell, atoms));
}

/* G*B */
static inline size_t wirambolo_frequencies_length(size_t atoms, size_t grid)
{
    return wirambolo_times(grid, wirambolo_bands(atoms));
}

/* 2*G*B*B */
static inline size_t wirambolo_eigenvectors_length(size_t atoms, size_t grid)
{
    return wirambolo_times(2, wirambolo_times(grid, wirambolo_pairs(atoms)));
}

/* P*S*S */
static inline size_t wirambolo_shortest_length(size_t atoms, size_t supercell)
{
    return wirambolo_times(atoms, wirambolo_times(supercell, supercell));
}

/* R*S*S */
static inline size_t wirambolo_nonzero_length(size_t atoms, size_t supercell, uint8_t form)
{
    if (form > WIRAMBOLO_FULL) {
        return WIRAMBOLO_NO_LENGTH;
    }
    return wirambolo_times(form == WIRAMBOLO_COMPACT ? atoms : supercell, wirambolo_times(supercell, supercell));
}

/* 27*R*S*S */
static inline size_t wirambolo_constants_length(size_t atoms, size_t supercell, uint8_t form)
{
    return wirambolo_times(27, wirambolo_nonzero_length(atoms, supercell, form));
}

/* ---- the name of an answer, as under ANSWERS */

static inline const char *wirambolo_answer_name(uint8_t answer)
{
    switch (answer) {
    case WIRAMBOLO_ACCEPTED: return "accepted";
    case WIRAMBOLO_MEASURE: return "measure";
    case WIRAMBOLO_LENGTH: return "length";
    case WIRAMBOLO_INDEX: return "index";
    case WIRAMBOLO_NOT_FINITE: return "not finite";
    case WIRAMBOLO_MESH: return "mesh";
    case WIRAMBOLO_MASS: return "mass";
    case WIRAMBOLO_CUTOFF: return "cutoff";
    case WIRAMBOLO_BATH: return "bath";
    case WIRAMBOLO_PHASE: return "phase";
    case WIRAMBOLO_WIDTH: return "width";
    case WIRAMBOLO_UNREADABLE: return "unreadable";
    default: return "unknown";
    }
}

#ifdef __cplusplus
}
#endif

#endif
