/* The tables of the benchmark are grown step by step from a random number that the group and the place fix (splitmix64). */
#include "groups.h"

/* Random numbers. */

static uint64_t state;

static uint64_t word(void) {
    uint64_t z = state += 0x9e3779b97f4a7c15;
    z = (z ^ z >> 30) * 0xbf58476d1ce4e5b9;
    z = (z ^ z >> 27) * 0x94d049bb133111eb;
    return z ^ z >> 31;
}

/* A number from low to high, both included. */
static size_t within(size_t low, size_t high) {
    return low + word() % (high - low + 1);
}

/* True so many times in a hundred. */
static int percent(size_t times) {
    return within(1, 100) <= times;
}

/* A molecule under construction: no step goes past 64 atoms or 64 bonds, and each says whether it was made. */

static struct table made;

static size_t bonds(void) {
    return made.bonds_len / 2;
}

/* Of a table of one fragment. */
static size_t basis_rings(void) {
    return bonds() + 1 - made.atoms;
}

static size_t bonds_at(size_t atom) {
    size_t met = 0;
    for (size_t i = 0; i < made.bonds_len; i++)
        met += made.bonds[i] == atom;
    return met;
}

static int bonded(size_t a, size_t b) {
    for (size_t k = 0; k < bonds(); k++)
        if ((made.bonds[2 * k] == a && made.bonds[2 * k + 1] == b) || (made.bonds[2 * k] == b && made.bonds[2 * k + 1] == a))
            return 1;
    return 0;
}

static void start(void) {
    made.atoms = 1;
    made.bonds_len = 0;
}

static int bond(size_t a, size_t b) {
    if (a == b || bonded(a, b) || bonds() == MOST_BONDS)
        return 0;
    made.bonds[made.bonds_len++] = (uint8_t)a;
    made.bonds[made.bonds_len++] = (uint8_t)b;
    return 1;
}

/* Hangs a chain of new atoms on an atom; its last atom is then the last of the table. */
static int chain(size_t at, size_t length) {
    if (made.atoms + length > MOST_ATOMS || bonds() + length > MOST_BONDS)
        return 0;
    for (size_t i = 0; i < length; i++) {
        bond(at, made.atoms);
        at = made.atoms++;
    }
    return 1;
}

/* Puts a path of new atoms between two atoms: a ring more, fused where the two are bonded, bridged where they are not, spiro
   where they are one. */
static int ear(size_t a, size_t b, size_t inner) {
    if (inner < (a == b ? 2 : 1) || bonds() + inner + 1 > MOST_BONDS || !chain(a, inner))
        return 0;
    return bond(made.atoms - 1, b);
}

/* A ring of new atoms that hangs on an atom by one bond; nothing where there is no room for it. */
static int hung_ring(size_t at, size_t size) {
    if (made.atoms + size > MOST_ATOMS || bonds() + size + 1 > MOST_BONDS)
        return 0;
    chain(at, 1);
    return ear(made.atoms - 1, made.atoms - 1, size - 1);
}

/* An atom with fewer bonds than that, if one is met soon. */
static size_t roomy_atom(size_t most) {
    size_t atom = within(0, made.atoms - 1);
    for (size_t tries = 0; tries < 50 && bonds_at(atom) >= most; tries++)
        atom = within(0, made.atoms - 1);
    return atom;
}

/* Mostly sixes and fives. */
static size_t usual_size(void) {
    size_t draw = within(1, 100);
    return draw <= 60 ? 6 : draw <= 85 ? 5 : draw <= 90 ? 7 : draw <= 95 ? 4 : 3;
}

/* Fuses a ring to a bond of a ring whose two atoms have no third bond. */
static int fuse(size_t size) {
    for (size_t tries = 0; tries < 50; tries++) {
        size_t k = within(0, bonds() - 1);
        size_t a = made.bonds[2 * k], b = made.bonds[2 * k + 1];
        if (bonds_at(a) == 2 && bonds_at(b) == 2)
            return ear(a, b, size - 2);
    }
    return 0;
}

/* Bridges two atoms that have no third bond. */
static int bridge(size_t inner) {
    size_t a = roomy_atom(3), b = roomy_atom(3);
    return a != b && !bonded(a, b) && bonds_at(a) == 2 && bonds_at(b) == 2 && ear(a, b, inner);
}

/* Chains of one to three atoms, until the table has so many bonds. */
static void substituents(size_t wanted) {
    while (bonds() < wanted) {
        size_t left = wanted - bonds();
        if (!chain(roomy_atom(4), within(1, left < 3 ? left : 3)))
            return;
    }
}

/* The same molecule with its atoms and its bonds in another order. */
static void renumber(void) {
    uint8_t number[MOST_ATOMS];
    for (size_t a = 0; a < made.atoms; a++) {
        size_t place = within(0, a);
        number[a] = number[place];
        number[place] = (uint8_t)a;
    }
    for (size_t i = 0; i < made.bonds_len; i++)
        made.bonds[i] = number[made.bonds[i]];
    for (size_t k = bonds(); k > 1; k--) {
        size_t j = within(0, k - 1);
        for (size_t end = 0; end < 2; end++) {
            uint8_t kept = made.bonds[2 * k - 2 + end];
            made.bonds[2 * k - 2 + end] = made.bonds[2 * j + end];
            made.bonds[2 * j + end] = kept;
        }
    }
}

/* The table made; every second one is renumbered. */
static struct table finished(size_t place) {
    if (place % 2 == 1)
        renumber();
    return made;
}

/* Drug-like: 10 to 35 bonds, up to 5 basis rings, mostly hung on one another or fused. */

static void one_ring_more(void) {
    size_t draw = within(1, 100), size = usual_size(), atom = roomy_atom(3);
    if (draw <= 50) {
        if (chain(atom, within(0, 3)))
            hung_ring(bonds_at(made.atoms - 1) == 1 ? made.atoms - 1 : atom, size);
    } else if (draw <= 90)
        fuse(size);
    else if (draw <= 95)
        ear(atom, atom, size - 1);
    else
        bridge(within(1, 2));
}

static struct table drug_like(size_t place) {
    state = 0x1000000 + place;
    do {
        start();
        size_t rings = percent(5) ? 0 : within(1, 5);
        if (rings > 0)
            ear(0, 0, usual_size() - 1);
        for (size_t tries = 0; tries < 20 && basis_rings() < rings; tries++)
            one_ring_more();
        substituents(within(10, 35));
    } while (bonds() < 10 || bonds() > 35);
    return finished(place);
}

/* Cages and fused systems of 6 to 10 basis rings. */

/* Rings of n atoms, an outer one whose atoms follow each other and an inner one that goes on by a step, each outer atom bonded to
   an inner one: prisms, Petersen's graph and their kin, n + 1 basis rings. */
static void prism(size_t first, size_t n, size_t step) {
    for (size_t i = 0; i < n; i++) {
        bond(first + i, first + (i + 1) % n);
        bond(first + i, first + n + i);
        bond(first + n + i, first + n + (i + step) % n);
    }
    made.atoms = first + 2 * n;
}

/* A ring of n atoms with chords, at most two to an atom. */
static void chorded(size_t first, size_t n, size_t chords) {
    for (size_t i = 0; i < n; i++)
        bond(first + i, first + (i + 1) % n);
    made.atoms = first + n;
    for (size_t left = chords; left > 0;) {
        size_t a = first + within(0, n - 1), b = first + within(0, n - 1);
        if (bonds_at(a) < 4 && bonds_at(b) < 4)
            left -= (size_t)bond(a, b);
    }
}

/* Hexagons of a honeycomb, each beside one before it. A corner of the honeycomb has a row and a column, as in a wall of bricks. */
static void honeycomb(size_t hexagons) {
    enum { WIDE = 64, MIDDLE = 32, NONE = 255 };
    static uint8_t atom_at[WIDE][WIDE];
    size_t row_of[16], column_of[16];
    for (size_t i = 0; i < WIDE * WIDE; i++)
        atom_at[i / WIDE][i % WIDE] = NONE;
    made.atoms = made.bonds_len = 0;
    for (size_t h = 0; h < hexagons; h++) {
        static const int by_row[6] = {0, 0, 1, 1, -1, -1}, by_column[6] = {2, -2, 1, -1, 1, -1};
        size_t row = MIDDLE, column = MIDDLE;
        for (int taken = h > 0; taken;) {
            size_t beside = within(0, h - 1), way = within(0, 5);
            row = row_of[beside] + (size_t)by_row[way];
            column = column_of[beside] + (size_t)by_column[way];
            taken = 0;
            for (size_t i = 0; i < h; i++)
                taken |= row_of[i] == row && column_of[i] == column;
        }
        row_of[h] = row;
        column_of[h] = column;
        /* A brick covers three corners of its row and three of the next. */
        uint8_t *corner[6];
        for (size_t i = 0; i < 6; i++) {
            corner[i] = i < 3 ? &atom_at[row][column + i] : &atom_at[row + 1][column + 5 - i];
            if (*corner[i] == NONE)
                *corner[i] = (uint8_t)made.atoms++;
        }
        for (size_t i = 0; i < 6; i++)
            bond(*corner[i], *corner[(i + 1) % 6]);
    }
}

/* Rings fused to and bridged over one another. */
static void fused(size_t rings) {
    do {
        start();
        ear(0, 0, usual_size() - 1);
        for (size_t tries = 0; tries < 50 && basis_rings() < rings; tries++)
            if (percent(70))
                fuse(within(4, 7));
            else
                bridge(within(1, 3));
    } while (basis_rings() < rings);
}

static struct table cage(size_t place) {
    state = 0x2000000 + place;
    start();
    size_t n;
    switch (place % 4) {
    case 0:
        honeycomb(within(6, 10));
        break;
    case 1:
        n = within(5, 9);
        prism(0, n, within(1, (n - 1) / 2));
        break;
    case 2:
        chorded(0, within(14, 24), within(5, 9));
        break;
    default:
        fused(within(6, 10));
    }
    size_t more = bonds() + within(0, 4);
    substituents(more < MOST_BONDS ? more : MOST_BONDS);
    return finished(place / 4);
}

/* The largest accepted tables: 64 bonds, and ten basis rings in an assembly. */

static void all_joined(size_t first, size_t n) {
    for (size_t a = 0; a < n; a++)
        for (size_t b = a + 1; b < n; b++)
            bond(first + a, first + b);
    made.atoms = first + n;
}

/* Bonds the atom before a part to a part, so that the table is one fragment. */
static void tie(size_t first) {
    bond(first - 1, first);
}

static struct table largest(size_t place) {
    state = 0x3000000 + place;
    start();
    switch (place % 6) {
    case 0:
        chorded(0, 55, 9);
        break;
    case 1:
        prism(0, 9, 2);
        prism(18, 9, within(1, 2));
        tie(18);
        break;
    case 2:
        for (size_t part = 0; part < 4; part++)
            all_joined(6 * part, 6);
        for (size_t part = 1; part < 4; part++)
            tie(6 * part);
        break;
    case 3:
        for (size_t part = 0; part < 3; part++)
            chorded(11 * part, 11, 9);
        for (size_t part = 1; part < 3; part++)
            tie(11 * part);
        break;
    case 4:
        honeycomb(10);
        break;
    default:
        chorded(0, 18, 9);
        chorded(18, 18, 9);
        tie(18);
    }
    substituents(MOST_BONDS);
    return finished(place / 6);
}

const struct group groups[GROUPS] = {
    {"drug-like", 1000, drug_like},
    {"cages and fused systems", 200, cage},
    {"largest accepted", 24, largest},
};
