/* Foliocrane for C: what each function promises is its contract in crates/foliocrane_c/src/lib.rt; docs/REFERENCE.md says it with examples.

   A table is an atom count and two bytes for each bond, the numbers of its two atoms, counted from 0. Every table is answered.
   A list is lent as a pointer and a length in items; nothing past what is counted is touched, and nothing at all where the call is refused.
   A set of bonds is one word, bit k for bond k.

   A C caller sees to what no contract can ask, and nothing else is asked of any caller:
   - Every byte of a list, as long as its length says, can be read, and of a list that is written to (`out`, `ring_atoms`, `ring_bonds`),
     written.
   - No pointer is null. That of an empty list, of length 0, is not followed: any other address will do, if it is aligned.
   - A list of words (uint64_t) lies at a multiple of 8 bytes, as C lays out every uint64_t. Bytes lie anywhere.
   - The lists of one call, the bond bytes and those that are written to, do not overlap.
   - While a call runs, no other thread writes to its lists, nor reads one that is written to.
   - The stack has room for the call, as below.

   No state is kept and no memory asked for, so several threads may call at the same time, each with lists that no other one writes.

   Stack: below 16 KB where the table is refused or has few sums (all assemblies together fewer than 32, an assembly of n basis rings having
   2^n - 1), and for any table no more than stands at each function. tests/stack measures it; README has all figures. */
#ifndef FOLIOCRANE_H
#define FOLIOCRANE_H

#include <stddef.h>
#include <stdint.h>

#ifdef __cplusplus
extern "C" {
#endif

/* 0 and a count of what is written: sets for lists of sets, bytes for assemblies, label and sidecar, bytes in each of its two lists for a
   walk; the table check writes nothing and counts basis rings. Or a refusal and 0. */
typedef struct {
    uint8_t number;
    size_t count;
} foliocrane_answer;

/* The refusals. The first in this list that applies is given, whichever bond it is about: 9 before 8. */
enum {
    FOLIOCRANE_ODD = 1,     /* half a bond: an odd number of bond bytes */
    FOLIOCRANE_ATOMS = 2,   /* no atom, or 65 atoms or more */
    FOLIOCRANE_BONDS = 3,   /* 65 bonds or more */
    FOLIOCRANE_END = 4,     /* a bond has an end that is the atom count or higher */
    FOLIOCRANE_SELF = 5,    /* the two ends of a bond are one atom */
    FOLIOCRANE_TWICE = 6,   /* two bonds have the same two atoms */
    FOLIOCRANE_TANGLED = 7, /* eleven or more basis rings in one assembly: for all rings, smallest basis and label */
    FOLIOCRANE_NOTRING = 9, /* the set is no ring of the table, as where it has a bond beyond the last: for the walk */
    FOLIOCRANE_ROOM = 8     /* the answer has more items than a lent list */
};

/* Is the table accepted, and how many basis rings has it? Stack: 2,680 bytes. */
foliocrane_answer foliocrane_check(uint64_t atoms, const uint8_t *bonds, size_t bonds_len);

/* The basis rings, in order of their closure bonds. At most 64 words. Stack: 3,224 bytes. */
foliocrane_answer foliocrane_basis_rings(uint64_t atoms, const uint8_t *bonds, size_t bonds_len, uint64_t *out, size_t out_len);

/* The assembly of each basis ring. At most 64 bytes. Stack: 3,736 bytes. */
foliocrane_answer foliocrane_assemblies(uint64_t atoms, const uint8_t *bonds, size_t bonds_len, uint8_t *out, size_t out_len);

/* All rings, the smaller first, and of one size the lower word. At most 6,547 words. Stack: 6,984 bytes with few sums, at most
   108,744. */
foliocrane_answer foliocrane_all_rings(uint64_t atoms, const uint8_t *bonds, size_t bonds_len, uint64_t *out, size_t out_len);

/* The smallest basis, as taken from all rings in their order. At most 64 words. Stack: 6,984 bytes with few sums, at most
   109,768. */
foliocrane_answer foliocrane_smallest_basis(uint64_t atoms, const uint8_t *bonds, size_t bonds_len, uint64_t *out, size_t out_len);

/* The reduced basis of 1975: it depends on the numbering, and may have sets that are no rings. At most 64 words. Stack:
   6,504 bytes. */
foliocrane_answer foliocrane_reduced_basis(uint64_t atoms, const uint8_t *bonds, size_t bonds_len, uint64_t *out, size_t out_len);

/* The label: it depends on the molecule and not on the numbering. Its field 01 is bonds - atoms + fragments, an atom without bonds being a
   fragment too: the number of basis rings. Earlier versions wrote bonds - atoms + 1 there, or 0 where that is negative, so that their labels
   differ in it for tables of several fragments that have a ring. At most 512 bytes. Stack: 9,576 bytes with few sums, at most 23,464. */
foliocrane_answer foliocrane_label(uint64_t atoms, const uint8_t *bonds, size_t bonds_len, uint8_t *out, size_t out_len);

/* The sidecar: the reduced basis in a field of its own. At most 515 bytes. Stack: 6,504 bytes. */
foliocrane_answer foliocrane_sidecar(uint64_t atoms, const uint8_t *bonds, size_t bonds_len, uint8_t *out, size_t out_len);

/* The ring that is a set of bonds, in walking order: from the lower atom of its lowest bond over that bond, and from each atom by the other
   bond of the set, until back at the start. The atom at a place is left by the bond at that place, and the last bond leads back to the
   first atom. Both lists are written or neither. At most 64 bytes in each. Stack: 2,072 bytes round a ring of six, at most 5,784. */
foliocrane_answer foliocrane_ring_walk(uint64_t atoms, const uint8_t *bonds, size_t bonds_len, uint64_t set, uint8_t *ring_atoms,
                                       size_t ring_atoms_len, uint8_t *ring_bonds, size_t ring_bonds_len);

#ifdef __cplusplus
}
#endif

#endif
