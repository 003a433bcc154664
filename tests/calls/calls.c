/* Calls every exported function, as C calls it, on examples S1 to S10 and S13 to S15 of docs/REFERENCE.md and on a few tables more. Each
   call's number, its count and every element of the list that was lent are held to what the example says: the items written, the rest
   as lent, all of it as lent where the call is refused. Each list is lent with no room, with one place too few, with just enough and
   with more, over two fillings, and lies between guard bytes; so do the bond bytes. The two lists of a walk are lent with each of these
   rooms beside each. Empty lists are lent at an address that can't be read too. */
#include <foliocrane.h>
#include <stdio.h>
#include <string.h>

/* What the examples say. */

struct words {
    size_t length;
    const uint64_t *items;
};

struct bytes {
    size_t length;
    const uint8_t *items;
};

#define WORDS(...) {sizeof((uint64_t[]){__VA_ARGS__}) / 8, (const uint64_t[]){__VA_ARGS__}}
#define BYTES(...) {sizeof((uint8_t[]){__VA_ARGS__}), (const uint8_t[]){__VA_ARGS__}}
#define NONE {0, 0}

/* A table, its refusal, that of the entries that need all rings where it is another, and every list. The label is in hex digits; the
   sidecar follows from the reduced basis. A refused table has no lists, and a tangled one not those of all rings. */
struct example {
    const char *name;
    uint64_t atoms;
    struct bytes bonds;
    uint8_t refusal, tangled;
    struct words basis;
    struct bytes assemblies;
    struct words all, smallest, reduced;
    const char *label;
};

#define TRIANGLE 0, 1, 1, 2, 2, 0
#define SIX_JOINED 0, 1, 0, 2, 0, 3, 0, 4, 0, 5, 1, 2, 1, 3, 1, 4, 1, 5, 2, 3, 2, 4, 2, 5, 3, 4, 3, 5, 4, 5
/* In S13 bond 0-a is bond a - 1, so each other bond a-b closes the three-ring 0-a-b. Of the three-rings with highest bond a-b it is the
   first, so these are the smallest basis too; and no sum of two is smaller, so they are the reduced one. */
#define SIX_JOINED_BASIS 0x23, 0x45, 0x89, 0x111, 0x206, 0x40a, 0x812, 0x100c, 0x2014, 0x4018

static uint8_t line_of_64[130];
static uint64_t six_joined_rings[197];

static const struct example examples[] = {
    {"S1", 1, NONE, 0, 0, NONE, NONE, NONE, NONE, NONE, "01000100 020000 030000 040000"},
    {"S2", 2, BYTES(0, 1), 0, 0, NONE, NONE, NONE, NONE, NONE, "01000100 020000 030000 040000"},
    {"S3", 3, BYTES(TRIANGLE), 0, 0, WORDS(7), BYTES(0), WORDS(7), WORDS(7), WORDS(7),
     "01000101 020003030001 0300020301 0400020103"},
    {"S4", 4, BYTES(0, 1, 1, 2, 2, 3, 3, 0, 0, 2), 0, 0, WORDS(15, 19), BYTES(0, 0), WORDS(19, 28, 15), WORDS(19, 28), WORDS(28, 19),
     "01000102 020006030002040001 0300020302 0400020205"},
    {"S5", 5, BYTES(TRIANGLE, 0, 3, 3, 4, 4, 0), 0, 0, WORDS(7, 56), BYTES(0, 1), WORDS(7, 56), WORDS(7, 56), WORDS(7, 56),
     "01000102 020003030002 0300020302 04000401030103"},
    {"S6", 7, BYTES(0, 1, 1, 2, 2, 3, 3, 4, 4, 5, 5, 0, 0, 6, 6, 3), 0, 0, WORDS(63, 199), BYTES(0, 0), WORDS(199, 248, 63),
     WORDS(199, 248), WORDS(248, 199), "01000102 020006050002060001 0300020502 0400020208"},
    {"S7", 4, BYTES(0, 1, 0, 2, 0, 3, 1, 2, 1, 3, 2, 3), 0, 0, WORDS(11, 21, 38), BYTES(0, 0, 0), WORDS(11, 21, 38, 56, 30, 45, 51),
     WORDS(11, 21, 38), WORDS(11, 21, 38), "01000103 020006030004040003 0300020303 0400020306"},
    {"S8", 4, BYTES(TRIANGLE), 0, 0, WORDS(7), BYTES(0), WORDS(7), WORDS(7), WORDS(7), "01000101 020003030001 0300020301 0400020103"},
    {"S9", 3, BYTES(0, 0, 0, 9), FOLIOCRANE_END, 0, NONE, NONE, NONE, NONE, NONE, ""},
    {"S10", 3, BYTES(0, 1, 1, 0), FOLIOCRANE_TWICE, 0, NONE, NONE, NONE, NONE, NONE, ""},
    {"S13", 6, BYTES(SIX_JOINED), 0, 0, WORDS(SIX_JOINED_BASIS), BYTES(0, 0, 0, 0, 0, 0, 0, 0, 0, 0), {197, six_joined_rings},
     WORDS(SIX_JOINED_BASIS), WORDS(SIX_JOINED_BASIS), "0100010a 02000c03001404002d05004806003c 030002030a 0400020a0f"},
    {"S13 with a seventh atom", 7, BYTES(SIX_JOINED, 6, 0, 6, 1), 0, FOLIOCRANE_TANGLED, WORDS(SIX_JOINED_BASIS, 0x18001),
     BYTES(0, 0, 0, 0, 0, 0, 0, 0, 0, 0, 0), NONE, NONE, WORDS(SIX_JOINED_BASIS, 0x18001), ""},
    {"S15", 64, {128, line_of_64}, 0, 0, WORDS(~0ull), BYTES(0), WORDS(~0ull), WORDS(~0ull), WORDS(~0ull),
     "01000101 020003400001 0300024001 0400020140"},
    {"S15 with atom count 65", 65, {128, line_of_64}, FOLIOCRANE_ATOMS, 0, NONE, NONE, NONE, NONE, NONE, ""},
    {"S15 with atom count 2^32 + 64", (1ull << 32) + 64, {128, line_of_64}, FOLIOCRANE_ATOMS, 0, NONE, NONE, NONE, NONE, NONE, ""},
    {"S15 with atom count 2^63", 1ull << 63, {128, line_of_64}, FOLIOCRANE_ATOMS, 0, NONE, NONE, NONE, NONE, NONE, ""},
    {"S15 with atom count 2^63 + 64", (1ull << 63) + 64, {128, line_of_64}, FOLIOCRANE_ATOMS, 0, NONE, NONE, NONE, NONE, NONE, ""},
    {"S15 with atom count 2^64 - 1", ~0ull, {128, line_of_64}, FOLIOCRANE_ATOMS, 0, NONE, NONE, NONE, NONE, NONE, ""},
    {"S15 with 65 bonds", 64, {130, line_of_64}, FOLIOCRANE_BONDS, 0, NONE, NONE, NONE, NONE, NONE, ""},
    {"two atoms apart", 2, NONE, 0, 0, NONE, NONE, NONE, NONE, NONE, "01000100 020000 030000 040000"},
    {"S4 and a three-ring", 7, BYTES(0, 1, 1, 2, 2, 3, 3, 0, 0, 2, 4, 5, 5, 6, 6, 4), 0, 0, WORDS(15, 19, 224), BYTES(0, 0, 1),
     WORDS(19, 28, 224, 15), WORDS(19, 28, 224), WORDS(28, 19, 224), "01000103 020006030003040001 0300020303 04000401030205"},
    {"sodium benzoate", 10, BYTES(0, 1, 1, 2, 2, 3, 3, 4, 4, 5, 5, 0, 0, 6, 6, 7, 6, 8), 0, 0, WORDS(63), BYTES(0), WORDS(63), WORDS(63),
     WORDS(63), "01000101 020003060001 0300020601 0400020106"},
    {"four squares in a row, the last closed second", 10,
     BYTES(0, 1, 1, 2, 2, 3, 3, 4, 0, 5, 1, 6, 2, 7, 3, 8, 4, 9, 5, 6, 8, 9, 6, 7, 7, 8), 0, 0, WORDS(561, 1416, 2146, 4292),
     BYTES(0, 0, 0, 0), WORDS(561, 1416, 2146, 4292, 2643, 5452, 6310, 6807, 7470, 7967), WORDS(561, 1416, 2146, 4292),
     WORDS(561, 1416, 2146, 4292), "01000104 02000c0400040600030800020a0001 0300020404 040002040d"},
    {"an odd byte and no atom", 0, BYTES(TRIANGLE, 1), FOLIOCRANE_ODD, 0, NONE, NONE, NONE, NONE, NONE, ""},
    {"no atom", 0, BYTES(TRIANGLE), FOLIOCRANE_ATOMS, 0, NONE, NONE, NONE, NONE, NONE, ""},
    {"a bond of an atom to itself", 2, BYTES(0, 0), FOLIOCRANE_SELF, 0, NONE, NONE, NONE, NONE, NONE, ""},
};

enum { EXAMPLES = sizeof examples / sizeof examples[0] };

/* A set of bonds of an example, and the ring in walking order; without atoms and bonds where the set is no ring. */
struct walk {
    const char *example;
    uint64_t set;
    struct bytes atoms, bonds;
};

static uint8_t up_to_64[64];

static const struct walk walks[] = {
    {"S2", 1, NONE, NONE},
    {"S3", 7, BYTES(0, 1, 2), BYTES(0, 1, 2)},
    {"S3", 3, NONE, NONE},
    {"S3", 15, NONE, NONE},
    {"S4", 15, BYTES(0, 1, 2, 3), BYTES(0, 1, 2, 3)},
    {"S4", 19, BYTES(0, 1, 2), BYTES(0, 1, 4)},
    {"S4", 28, BYTES(2, 3, 0), BYTES(2, 3, 4)},
    {"S5", 56, BYTES(0, 3, 4), BYTES(3, 4, 5)},
    {"S5", 63, NONE, NONE},
    {"S6", 63, BYTES(0, 1, 2, 3, 4, 5), BYTES(0, 1, 2, 3, 4, 5)},
    {"S6", 199, BYTES(0, 1, 2, 3, 6), BYTES(0, 1, 2, 7, 6)},
    {"S6", 248, BYTES(3, 4, 5, 0, 6), BYTES(3, 4, 5, 6, 7)},
    {"S6", 255, NONE, NONE},
    {"S6", 199 + 256, NONE, NONE},
    {"S6", 199 + (1ull << 63), NONE, NONE},
    {"S7", 30, BYTES(0, 2, 1, 3), BYTES(1, 3, 4, 2)},
    {"S7", 51, BYTES(0, 1, 3, 2), BYTES(0, 4, 5, 1)},
    {"S13", 0x6443, BYTES(0, 1, 3, 5, 4, 2), BYTES(0, 6, 13, 14, 10, 1)},
    {"S13 with a seventh atom", 0x18001, BYTES(0, 1, 6), BYTES(0, 16, 15)},
    {"S13 with a seventh atom", 0x6443, BYTES(0, 1, 3, 5, 4, 2), BYTES(0, 6, 13, 14, 10, 1)},
    {"S15", ~0ull, {64, up_to_64}, {64, up_to_64}},
    {"S15", ~0ull >> 1, NONE, NONE},
    {"S4 and a three-ring", 224, BYTES(4, 5, 6), BYTES(5, 6, 7)},
    {"S4 and a three-ring", 224 + 19, NONE, NONE},
};

enum { WALKS = sizeof walks / sizeof walks[0] };

/* S15: bond k joins atoms k and k + 1, bond 63 closes the line, and a bond 64 is one too many. */
static void draw_line(void) {
    for (size_t k = 0; k < 64; k++) {
        up_to_64[k] = (uint8_t)k;
        line_of_64[2 * k] = (uint8_t)k;
        line_of_64[2 * k + 1] = (uint8_t)((k + 1) % 64);
    }
    line_of_64[128] = 0;
    line_of_64[129] = 2;
}

/* Is a set of bonds of S13 a ring? One goes over its lowest bond and on by the one other bond of the set at each atom; back at the start,
   none is left. */
static int is_ring(uint64_t set) {
    static const uint8_t ends[] = {SIX_JOINED};
    uint64_t left = set & (set - 1);
    size_t low = (size_t)__builtin_ctzll(set), first = ends[2 * low], at = ends[2 * low + 1], met = 1 << at;
    while (at != first) {
        size_t ways = 0, next = 0, by = 0;
        for (size_t k = 0; k < 15; k++)
            if (left >> k & 1 && (ends[2 * k] == at || ends[2 * k + 1] == at)) {
                next = ends[2 * k] == at ? ends[2 * k + 1] : ends[2 * k];
                by = k;
                ways++;
            }
        if (ways != 1 || met >> next & 1)
            return 0;
        left ^= 1ull << by;
        met |= 1ull << next;
        at = next;
    }
    return left == 0;
}

/* S13: all rings, found among all sets of its bonds, by size and then by number. Gives how many there are. */
static size_t list_six_joined(void) {
    size_t listed = 0;
    for (int size = 3; size <= 6; size++)
        for (uint64_t set = 1; set < 1 << 15; set++)
            if (__builtin_popcountll(set) == size && is_ring(set) && listed++ < 197)
                six_joined_rings[listed - 1] = set;
    return listed;
}

/* The label in bytes. */
static size_t read_hex(const char *digits, uint8_t *to) {
    size_t read = 0;
    for (; *digits; digits++)
        if (*digits != ' ') {
            uint8_t digit = (uint8_t)(*digits <= '9' ? *digits - '0' : *digits - 'a' + 10);
            to[read / 2] = (uint8_t)(read % 2 == 0 ? digit << 4 : to[read / 2] | digit);
            read++;
        }
    return read / 2;
}

/* The sidecar: tag 20 (hex), the length in two bytes, eight bytes a set, high byte first. */
static size_t sidecar_of(struct words reduced, uint8_t *to) {
    to[0] = 0x20;
    to[1] = (uint8_t)(reduced.length >> 5);
    to[2] = (uint8_t)(8 * reduced.length);
    for (size_t i = 0; i < 8 * reduced.length; i++)
        to[3 + i] = (uint8_t)(reduced.items[i / 8] >> 8 * (7 - i % 8));
    return 3 + 8 * reduced.length;
}

/* The exported functions that write. */

typedef foliocrane_answer writes_words(uint64_t, const uint8_t *, size_t, uint64_t *, size_t);
typedef foliocrane_answer writes_bytes(uint64_t, const uint8_t *, size_t, uint8_t *, size_t);

/* A function and what it is to write: its refusal, and the items, so many, each so wide. */
struct call {
    const char *name;
    writes_words *words;
    writes_bytes *bytes;
    uint8_t refusal;
    size_t length;
    const void *items;
};

static size_t width(const struct call *call) {
    return call->words ? 8 : 1;
}

/* The checks, how many did not hold, and the first of these. */

static size_t checks, failures;
static char first[200];

static void check(int holds, const struct example *example, const char *function, size_t room, const char *what) {
    checks++;
    if (!holds && failures++ == 0)
        snprintf(first, sizeof first, "%s of %s with room for %zu: %s", function, example->name, room, what);
}

/* A list between guard bytes, filled so that each byte differs from its neighbours, and from those of the other filling. */

enum { GUARD = 64, MOST_LENT = 8 * 256 };

struct lent {
    _Alignas(8) uint8_t all[GUARD + MOST_LENT + GUARD];
};

static uint8_t filling_at(size_t place, uint8_t filling) {
    return (uint8_t)(place * 37 + 11) ^ filling;
}

static void lend(struct lent *lent, uint8_t filling) {
    for (size_t i = 0; i < sizeof lent->all; i++)
        lent->all[i] = filling_at(i, filling);
}

/* Does the list hold what was written, and is all the rest as lent? */
static int holds(const struct lent *lent, uint8_t filling, const void *written, size_t length) {
    for (size_t i = 0; i < sizeof lent->all; i++) {
        int inside = i >= GUARD && i < GUARD + length;
        if (lent->all[i] != (inside ? ((const uint8_t *)written)[i - GUARD] : filling_at(i, filling)))
            return 0;
    }
    return 1;
}

static struct lent bonds, out, beside;

/* Lends the bond bytes of an example. */
static void lend_bonds(const struct example *example) {
    lend(&bonds, 0x5a);
    if (example->bonds.length > 0)
        memcpy(bonds.all + GUARD, example->bonds.items, example->bonds.length);
}

static int bonds_as_lent(const struct example *example) {
    return holds(&bonds, 0x5a, example->bonds.items, example->bonds.length);
}

/* One call with room for so many items over one filling. */
static void try_room(const struct example *example, const struct call *call, size_t room, uint8_t filling) {
    lend_bonds(example);
    lend(&out, filling);
    const uint8_t *from = bonds.all + GUARD;
    uint8_t *to = out.all + GUARD;
    foliocrane_answer answer = call->words ? call->words(example->atoms, from, example->bonds.length, (uint64_t *)(void *)to, room)
                                           : call->bytes(example->atoms, from, example->bonds.length, to, room);
    uint8_t number = call->refusal ? call->refusal : call->length > room ? FOLIOCRANE_ROOM : 0;
    size_t count = number ? 0 : call->length;
    check(answer.number == number, example, call->name, room, "the number");
    check(answer.count == count, example, call->name, room, "the count");
    check(holds(&out, filling, call->items, width(call) * count), example, call->name, room, "the list that was lent");
    check(bonds_as_lent(example), example, call->name, room, "the bond bytes");
}

/* Every room worth trying: none, one too little (S14), just enough (S14), and more. */
static void try_call(const struct example *example, const struct call *call) {
    for (int filling = 0; filling < 2; filling++) {
        try_room(example, call, 0, filling ? 0xff : 0);
        if (call->length > 0)
            try_room(example, call, call->length - 1, filling ? 0xff : 0);
        try_room(example, call, call->length, filling ? 0xff : 0);
        try_room(example, call, call->length + 1, filling ? 0xff : 0);
        try_room(example, call, MOST_LENT / width(call), filling ? 0xff : 0);
    }
}

/* One walk with room for so many atoms and so many bonds over one filling. */
static void try_rooms(const struct example *example, const struct walk *walk, size_t for_atoms, size_t for_bonds, uint8_t filling) {
    char name[100];
    snprintf(name, sizeof name, "foliocrane_ring_walk round %llx, %zu bytes lent for bonds,", (unsigned long long)walk->set, for_bonds);
    lend_bonds(example);
    lend(&out, filling);
    lend(&beside, filling ^ 0x33);
    foliocrane_answer answer = foliocrane_ring_walk(example->atoms, bonds.all + GUARD, example->bonds.length, walk->set, out.all + GUARD,
                                                    for_atoms, beside.all + GUARD, for_bonds);
    size_t length = walk->bonds.length, room = for_atoms < for_bonds ? for_atoms : for_bonds;
    uint8_t refusal = example->refusal ? example->refusal : length == 0 ? FOLIOCRANE_NOTRING : 0;
    uint8_t number = refusal ? refusal : length > room ? FOLIOCRANE_ROOM : 0;
    size_t count = number ? 0 : length;
    check(answer.number == number, example, name, for_atoms, "the number");
    check(answer.count == count, example, name, for_atoms, "the count");
    check(holds(&out, filling, walk->atoms.items, count), example, name, for_atoms, "the list for atoms");
    check(holds(&beside, filling ^ 0x33, walk->bonds.items, count), example, name, for_atoms, "the list for bonds");
    check(bonds_as_lent(example), example, name, for_atoms, "the bond bytes");
}

/* Every room worth trying for the atoms, beside every one for the bonds. */
static void try_walk(const struct example *example, const struct walk *walk) {
    size_t length = walk->bonds.length;
    const size_t rooms[] = {0, length - (length > 0), length, length + 1, MOST_LENT};
    for (size_t i = 0; i < 25; i++) {
        try_rooms(example, walk, rooms[i / 5], rooms[i % 5], 0);
        try_rooms(example, walk, rooms[i / 5], rooms[i % 5], 0xff);
    }
}

/* The walks of an example, and before them the empty set and a set of two bonds, which are rings of no table. Gives how many of the walks
   above are its own. */
static size_t try_walks(const struct example *example) {
    const struct walk empty = {example->name, 0, NONE, NONE}, two_bonds = {example->name, 5, NONE, NONE};
    size_t own = 0;
    try_walk(example, &empty);
    try_walk(example, &two_bonds);
    for (size_t i = 0; i < WALKS; i++)
        if (strcmp(walks[i].example, example->name) == 0) {
            try_walk(example, &walks[i]);
            own++;
        }
    return own;
}

static void try_check(const struct example *example) {
    lend_bonds(example);
    foliocrane_answer answer = foliocrane_check(example->atoms, bonds.all + GUARD, example->bonds.length);
    check(answer.number == example->refusal, example, "foliocrane_check", 0, "the number");
    check(answer.count == example->basis.length, example, "foliocrane_check", 0, "the count");
    check(bonds_as_lent(example), example, "foliocrane_check", 0, "the bond bytes");
}

static void try_example(const struct example *e) {
    uint8_t label[64], sidecar[128];
    size_t label_length = read_hex(e->label, label);
    size_t sidecar_length = e->refusal ? 0 : sidecar_of(e->reduced, sidecar);
    uint8_t of_rings = e->refusal ? e->refusal : e->tangled;
    const struct call calls[] = {
        {"foliocrane_basis_rings", foliocrane_basis_rings, 0, e->refusal, e->basis.length, e->basis.items},
        {"foliocrane_assemblies", 0, foliocrane_assemblies, e->refusal, e->assemblies.length, e->assemblies.items},
        {"foliocrane_all_rings", foliocrane_all_rings, 0, of_rings, e->all.length, e->all.items},
        {"foliocrane_smallest_basis", foliocrane_smallest_basis, 0, of_rings, e->smallest.length, e->smallest.items},
        {"foliocrane_reduced_basis", foliocrane_reduced_basis, 0, e->refusal, e->reduced.length, e->reduced.items},
        {"foliocrane_label", 0, foliocrane_label, of_rings, label_length, label},
        {"foliocrane_sidecar", 0, foliocrane_sidecar, e->refusal, sidecar_length, sidecar},
    };
    try_check(e);
    for (size_t i = 0; i < sizeof calls / sizeof calls[0]; i++)
        try_call(e, &calls[i]);
}

/* Empty lists at an address that is not to be followed: an atom by itself has no rings, and its label and sidecar find no room; a walk round
   a three-ring finds none either. */
static void try_nowhere(void) {
    static const struct example alone = {"lists of length 0 at address 8", 1, NONE, 0, 0, NONE, NONE, NONE, NONE, NONE, ""};
    static const uint8_t triangle[] = {TRIANGLE};
    const uint8_t *from = (const uint8_t *)8;
    uint64_t *words = (uint64_t *)8;
    uint8_t *bytes = (uint8_t *)8;
    const struct {
        const char *name;
        foliocrane_answer answer;
        uint8_t number;
    } calls[] = {
        {"foliocrane_check", foliocrane_check(1, from, 0), 0},
        {"foliocrane_basis_rings", foliocrane_basis_rings(1, from, 0, words, 0), 0},
        {"foliocrane_assemblies", foliocrane_assemblies(1, from, 0, bytes, 0), 0},
        {"foliocrane_all_rings", foliocrane_all_rings(1, from, 0, words, 0), 0},
        {"foliocrane_smallest_basis", foliocrane_smallest_basis(1, from, 0, words, 0), 0},
        {"foliocrane_reduced_basis", foliocrane_reduced_basis(1, from, 0, words, 0), 0},
        {"foliocrane_label", foliocrane_label(1, from, 0, bytes, 0), FOLIOCRANE_ROOM},
        {"foliocrane_sidecar", foliocrane_sidecar(1, from, 0, bytes, 0), FOLIOCRANE_ROOM},
        {"foliocrane_ring_walk", foliocrane_ring_walk(1, from, 0, 0, bytes, 0, bytes, 0), FOLIOCRANE_NOTRING},
        {"foliocrane_ring_walk", foliocrane_ring_walk(3, triangle, sizeof triangle, 7, bytes, 0, bytes, 0), FOLIOCRANE_ROOM},
    };
    for (size_t i = 0; i < sizeof calls / sizeof calls[0]; i++)
        check(calls[i].answer.number == calls[i].number && calls[i].answer.count == 0, &alone, calls[i].name, 0, "the answer");
}

int main(void) {
    draw_line();
    if (list_six_joined() != 197) {
        printf("calls: six atoms all joined have 197 rings, and the list here has not\n");
        return 1;
    }
    size_t walked = 0;
    for (size_t i = 0; i < EXAMPLES; i++) {
        try_example(&examples[i]);
        walked += try_walks(&examples[i]);
    }
    if (walked != WALKS) {
        printf("calls: %zu of %d walks belong to an example\n", walked, WALKS);
        return 1;
    }
    try_nowhere();
    if (failures > 0)
        printf("calls: %zu of %zu checks do not hold; first %s\n", failures, checks, first);
    else
        printf("calls: 9 functions on %d tables, %zu checks hold\n", EXAMPLES, checks);
    return failures > 0;
}
