/* Measures how much stack each exported function takes: the stack below the caller is painted before a call, and after it the lowest
   byte that has changed is looked for. Every function is called on five tables: one that is refused, one with few sums, the largest ring,
   which has few sums too, one assembly of ten basis rings, and four of them; the walk goes round the largest ring of the table. The most
   that each kind of table may take is what README and the header say. */
#include <foliocrane.h>
#include <stdio.h>
#include <string.h>

#define PAINTED (256 * 1024)
#define PAINT 0xa5
#define ROOM 8192

/* What README and the header say, in bytes. */
#define LITTLE (16 * 1024)
#define COUNTS (32 * 1024)
#define LISTS (128 * 1024)

#define MOST_BONDS 64

static uint8_t bonds[2 * MOST_BONDS];
static uint64_t words[ROOM];
static uint8_t bytes[ROOM], bytes_beside[ROOM];

/* The ring that is walked round. */
static uint64_t ring;

/* So many times six atoms all joined, at most four: 15 bonds and 10 basis rings for each. The bonds of the first ones are 0-1 0-2 0-3 0-4 0-5
   1-2 1-3 1-4 1-5 2-3 2-4 2-5 3-4 3-5 4-5, and the ring is 0-1 1-2 2-3 3-4 4-5 0-5. These functions give how many bytes the bonds take. */
static size_t join_six(size_t times) {
    size_t n = 0;
    ring = 1 << 0 | 1 << 5 | 1 << 9 | 1 << 12 | 1 << 14 | 1 << 4;
    for (size_t t = 0; t < times; t++)
        for (size_t a = 0; a < 6; a++)
            for (size_t b = a + 1; b < 6; b++) {
                bonds[n++] = (uint8_t)(6 * t + a);
                bonds[n++] = (uint8_t)(6 * t + b);
            }
    return n;
}

/* Norbornane with a spiro three-ring: few sums, two assemblies, and the six-ring as the largest. */
static size_t draw_few(void) {
    static const uint8_t few[] = {0, 1, 1, 2, 2, 3, 3, 4, 4, 5, 5, 0, 0, 6, 6, 3, 1, 7, 7, 8, 8, 1};
    ring = 63;
    memcpy(bonds, few, sizeof few);
    return sizeof few;
}

/* One ring of as many bonds as a table can have. */
static size_t draw_ring(void) {
    ring = ~0ull;
    for (size_t k = 0; k < MOST_BONDS; k++) {
        bonds[2 * k] = (uint8_t)k;
        bonds[2 * k + 1] = (uint8_t)((k + 1) % MOST_BONDS);
    }
    return sizeof bonds;
}

/* The tables, those that are refused or have few sums in front. */
enum { REFUSED, FEW, RING, ONE, FOUR, TABLES };

static size_t draw(int table) {
    switch (table) {
    case REFUSED: return draw_few() - 1;
    case FEW: return draw_few();
    case RING: return draw_ring();
    case ONE: return join_six(1);
    default: return join_six(4);
    }
}

__attribute__((noinline)) static void paint(void) {
    volatile uint8_t area[PAINTED];
    for (size_t i = 0; i < PAINTED; i++)
        area[i] = PAINT;
}

/* The bytes from the first one that is not as painted up to the top of the area. */
__attribute__((noinline)) static size_t changed(void) {
    volatile uint8_t area[PAINTED];
    __asm__ volatile("" : : "r"(area) : "memory");
    size_t i = 0;
    while (i < PAINTED && area[i] == PAINT)
        i++;
    return PAINTED - i;
}

__attribute__((noinline)) static foliocrane_answer call(size_t entry, uint64_t atoms, size_t length) {
    switch (entry) {
    case 0: return foliocrane_check(atoms, bonds, length);
    case 1: return foliocrane_basis_rings(atoms, bonds, length, words, ROOM);
    case 2: return foliocrane_assemblies(atoms, bonds, length, bytes, ROOM);
    case 3: return foliocrane_all_rings(atoms, bonds, length, words, ROOM);
    case 4: return foliocrane_smallest_basis(atoms, bonds, length, words, ROOM);
    case 5: return foliocrane_reduced_basis(atoms, bonds, length, words, ROOM);
    case 6: return foliocrane_label(atoms, bonds, length, bytes, ROOM);
    case 7: return foliocrane_sidecar(atoms, bonds, length, bytes, ROOM);
    default: return foliocrane_ring_walk(atoms, bonds, length, ring, bytes, ROOM, bytes_beside, ROOM);
    }
}

#define ENTRIES 9
static const char *const names[ENTRIES] = {"check",         "basis_rings", "assemblies", "all_rings", "smallest_basis",
                                           "reduced_basis", "label",       "sidecar",    "ring_walk"};

/* The most bytes that an entry may take of the stack, where the table is neither refused nor has few sums; else it is LITTLE. */
static const size_t most[ENTRIES] = {LITTLE, LITTLE, LITTLE, LISTS, LISTS, LITTLE, COUNTS, LITTLE, LITTLE};

int main(void) {
    size_t failures = 0;
    for (size_t entry = 0; entry < ENTRIES; entry++) {
        size_t taken[TABLES];
        for (int table = 0; table < TABLES; table++) {
            size_t length = draw(table);
            paint();
            foliocrane_answer answer = call(entry, 64, length);
            taken[table] = changed();
            failures += answer.number != (table == REFUSED ? FOLIOCRANE_ODD : 0);
            failures += taken[table] > (table < ONE ? LITTLE : most[entry]);
        }
        printf("stack: %-14s refused %6zu, few sums %6zu, largest ring %6zu, one large assembly %6zu, four %6zu bytes\n", names[entry],
               taken[REFUSED], taken[FEW], taken[RING], taken[ONE], taken[FOUR]);
    }
    if (failures > 0)
        printf("stack: %zu calls take more than they may, or answer otherwise\n", failures);
    return failures > 0;
}
