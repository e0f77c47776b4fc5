"""Cell U of the key cases, its frequencies 3, 1 and 2: weights and flags from a box of half-width 0.25, with them strengths and totals by
the joined function; prints its key.

    python3 bindings/python/example.py

A set that is turned away prints `refused N`, and the exit status is 1. The command that makes the shared object stands at the top of
wirambolo.py.
"""

import struct
import sys
from array import array

import wirambolo

ATOMS, SUPERCELL, FIRST = 1, 1, 3
BANDS = wirambolo.bands(ATOMS)
SLOTS = wirambolo.slots(ATOMS, FIRST)


def bits_of(x):
    """The bits of x; every NaN counts as one."""
    return 0x7FF8000000000000 if x != x else struct.unpack("<Q", struct.pack("<d", x))[0]


def key(flags, strengths, totals):
    """The slots whose flag is not set, by b, then k, then j; then the totals."""
    lines = [f"bands {FIRST}"]
    for b in range(FIRST):
        for k in range(BANDS):
            for j in range(BANDS):
                n = wirambolo.slot(ATOMS, b, j, k)
                if flags[n] == 0:
                    lines.append(f"slot {b} {j} {k} {bits_of(strengths[n]):016x}")
    lines += [f"total {b} {bits_of(total):016x}" for b, total in enumerate(totals)]
    return "\n".join(lines)


def main():
    """Prints the key; the exit status."""
    constants = [0.0] * 27
    constants[3 * 1 + 2] = 16.0
    eigenvectors = [0.0] * (2 * BANDS * BANDS)
    for band in range(BANDS):
        eigenvectors[2 * (BANDS * band + band)] = 1.0
    first_weights = array("d", [0.0] * SLOTS)
    second_weights = array("d", [0.0] * SLOTS)
    flags = bytearray(SLOTS)

    strengths = array("d", [0.0] * SLOTS)
    totals = array("d", [0.0] * FIRST)
    work = array("d", [0.0] * wirambolo.work_length(ATOMS, SUPERCELL))
    # what both functions read
    shared = {
        "atoms": ATOMS,
        "first": FIRST,
        "grid": 1,
        "triplet": [0, 0, 0],
        "bands": [0, 1, 2],
        "frequencies": [3.0, 1.0, 2.0],
    }
    library = wirambolo.load()
    try:
        library.integration_weights_at_triplet(
            **shared,
            shape=wirambolo.Box(0.25),
            first_weights=first_weights,
            second_weights=second_weights,
            flags=flags,
        )
        library.joined_at_triplet(
            **shared,
            supercell=SUPERCELL,
            vectors_count=1,
            anchoring=wirambolo.PLAIN,
            cutoff=0.5,
            form=wirambolo.COMPACT,
            symmetry=wirambolo.SYMMETRIZED,
            mesh=[1, 1, 1],
            matrix=[1, 0, 0, 0, 1, 0, 0, 0, 1],
            addresses=[0, 0, 0],
            vectors=[0.0, 0.0, 0.0],
            multiplicity=[1, 0],
            p2s=[0],
            s2p=[0],
            masses=[4.0],
            eigenvectors=eigenvectors,
            shortest=[0],
            nonzero=[1],
            constants=constants,
            flags=flags,
            weight=3,
            temperature=1.0,
            first_weights=first_weights,
            second_weights=second_weights,
            strengths=strengths,
            totals=totals,
            work=work,
        )
    except wirambolo.Refused as refused:
        print(f"refused {refused.number}")
        return 1
    print(key(flags, strengths, totals))
    return 0


if __name__ == "__main__":
    sys.exit(main())
