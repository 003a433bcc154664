/* The time of the label beside that of a plain search by walking, in one process, over three groups of tables. First the labels are
   compared: number, count and every byte of the lent list. Then the sides take turns, round after round, and the best round of each
   counts. It is a benchmark and no test: it fails only where labels differ. */
#include "groups.h"
#include "walking.h"
#include <stdio.h>
#include <string.h>
#include <time.h>

enum { ROOM = 512, ROUNDS = 7, MOST_TABLES = 1000, SIDES = 3 };

typedef foliocrane_answer labels(uint64_t, const uint8_t *, size_t, uint8_t *, size_t);

/* The library, the walks over every bond, and the walks over ring bonds. */
static labels *const sides[SIDES] = {foliocrane_label, walking_label, walking_label_on_rings};

/* How many times as fast as walking the label is to be. */
static const double goal[GROUPS] = {2, 1, 1};

static struct table tables[MOST_TABLES];

/* From the least to the most of something in a group. */
struct range {
    size_t least, most;
};

static void widen(struct range *range, size_t value) {
    if (value < range->least)
        range->least = value;
    if (value > range->most)
        range->most = value;
}

struct facts {
    struct range bonds, basis, rings;
};

/* The number of rings, from field 02 of a label. */
static size_t rings_in(const uint8_t *label) {
    size_t rings = 0, length = 256 * label[5] + label[6];
    for (size_t i = 0; i < length; i += 3)
        rings += 256 * label[8 + i] + label[9 + i];
    return rings;
}

/* Makes the group's tables and compares their labels; says which table has labels that differ or none, if one has. */
static int make_tables(const struct group *group, struct facts *facts) {
    for (size_t i = 0; i < group->tables; i++) {
        const struct table *table = &tables[i];
        uint8_t lent[SIDES][ROOM];
        foliocrane_answer answers[SIDES];
        tables[i] = group->table_at(i);
        for (size_t side = 0; side < SIDES; side++) {
            memset(lent[side], 0xa5, ROOM);
            answers[side] = sides[side](table->atoms, table->bonds, table->bonds_len, lent[side], ROOM);
            if (answers[side].number != 0 || answers[side].count != answers[0].count || memcmp(lent[side], lent[0], ROOM) != 0) {
                printf("bench: table %zu of %s: the labels differ, or there is none\n", i, group->name);
                return 0;
            }
        }
        widen(&facts->bonds, table->bonds_len / 2);
        widen(&facts->basis, foliocrane_check(table->atoms, table->bonds, table->bonds_len).count);
        widen(&facts->rings, rings_in(lent[0]));
    }
    return 1;
}

/* Processor time, so that other programs on the machine count little. */
static double seconds(void) {
    struct timespec now;
    clock_gettime(CLOCK_PROCESS_CPUTIME_ID, &now);
    return (double)now.tv_sec + (double)now.tv_nsec / 1e9;
}

/* Microseconds a table: a side goes through the group until a tenth of a second is over. */
static double round_of(labels *side, size_t count) {
    static uint8_t lent[ROOM];
    size_t passes = 0;
    double began = seconds(), took;
    do {
        for (size_t i = 0; i < count; i++)
            side(tables[i].atoms, tables[i].bonds, tables[i].bonds_len, lent, ROOM);
        passes++;
        took = seconds() - began;
    } while (took < 0.1);
    return took * 1e6 / (double)(passes * count);
}

static int try_group(size_t g) {
    const struct group *group = &groups[g];
    struct facts facts = {{~0ull, 0}, {~0ull, 0}, {~0ull, 0}};
    double best[SIDES] = {0};
    if (!make_tables(group, &facts))
        return 0;
    for (size_t round = 0; round < ROUNDS; round++)
        for (size_t side = 0; side < SIDES; side++) {
            double took = round_of(sides[side], group->tables);
            if (round == 0 || took < best[side])
                best[side] = took;
        }
    printf("%s: %zu tables of %zu to %zu bonds, %zu to %zu basis rings, %zu to %zu rings\n", group->name, group->tables, facts.bonds.least,
           facts.bonds.most, facts.basis.least, facts.basis.most, facts.rings.least, facts.rings.most);
    printf("    label                       %10.3f us a table\n", best[0]);
    printf("    walking over every bond     %10.3f us a table, %8.2f times the label's (goal: at least %.0f)\n", best[1], best[1] / best[0], goal[g]);
    printf("    walking over ring bonds     %10.3f us a table, %8.2f times the label's\n", best[2], best[2] / best[0]);
    return 1;
}

int main(void) {
    printf("x86-64 code, the library and the walking by the same clang at -O3 for the first x86-64\n");
    printf("processor time, best of %d rounds, the sides in turn\n", ROUNDS);
    printf("buffers: the lent list is not cleared between calls, on either side; walking does not clear its own; the library clears its own\n"
           "in every call, as the language has no array without values, and that is in its time\n");
    for (size_t g = 0; g < GROUPS; g++)
        if (!try_group(g))
            return 1;
    return 0;
}
