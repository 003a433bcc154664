/* The tables of the benchmark, in three groups. A group's tables are the same in every run. */
#ifndef GROUPS_H
#define GROUPS_H

#include <stddef.h>
#include <stdint.h>

enum { MOST_ATOMS = 64, MOST_BONDS = 64 };

struct table {
    size_t atoms;
    size_t bonds_len;
    uint8_t bonds[2 * MOST_BONDS];
};

/* A group: its name, how many tables it has, and the table at a place. */
struct group {
    const char *name;
    size_t tables;
    struct table (*table_at)(size_t place);
};

enum { GROUPS = 3 };
extern const struct group groups[GROUPS];

#endif
