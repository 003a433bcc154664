/* Prints what every exported function answers for each table on standard input, and every item that was lent, after the call. A record is
   field 10 (hex) with the atom count in one byte or in eight, field 11 with the bond bytes and, where another room than 64 items is to be
   lent, field 1f with the room in two bytes; a field is a tag, a length in two bytes, and its content. Numbers have the high byte first.
   A record that goes on with fields 1e asks for walks, and for nothing else: each has a set of bonds in eight bytes, the room for atoms in
   one and the room for bonds in one. tests/walking/protocol.rs has the lines. */
#include <foliocrane.h>
#include <stdio.h>

enum {
    ATOMS_TAG = 0x10,
    BONDS_TAG = 0x11,
    WALK_TAG = 0x1e,
    ROOM_TAG = 0x1f,
    WALK_LENGTH = 10,
    MOST_INPUT = 131072, /* no more bytes of the input are read */
    MOST_ROOM = 6548,    /* one word more than all rings of a table can need */
    ROOM_UNSAID = 64,    /* the room that is lent where a record says none */
    BYTE_LENT = 0xa5,    /* byte i is lent as this and i, modulo 256 */
    BOND_LENT = 0x65     /* and so is byte i for the bonds of a walk */
};

/* Word i is lent as this and i. */
static const uint64_t WORD_LENT = 0xa5a5000000000000;

/* The records. */

struct bytes {
    const uint8_t *items;
    size_t length;
};

struct record {
    uint64_t atoms;
    struct bytes bonds;
    size_t room;
    struct bytes walks; /* the fields that ask for walks */
};

/* The number in so many bytes. */
static uint64_t number_in(const uint8_t *bytes, size_t length) {
    uint64_t number = 0;
    for (size_t i = 0; i < length; i++)
        number = number << 8 | bytes[i];
    return number;
}

/* Takes the field with a tag off the start of the input; 0 if there is none. */
static int take_field(struct bytes *input, uint8_t tag, struct bytes *content) {
    if (input->length < 3 || input->items[0] != tag)
        return 0;
    content->items = input->items + 3;
    content->length = number_in(input->items + 1, 2);
    if (input->length - 3 < content->length)
        return 0;
    input->items += 3 + content->length;
    input->length -= 3 + content->length;
    return 1;
}

/* Takes the room where it is said; 0 if it is broken, or more than is ever lent. */
static int take_room(struct bytes *input, size_t *room) {
    struct bytes said;
    *room = ROOM_UNSAID;
    if (input->length == 0 || input->items[0] != ROOM_TAG)
        return 1;
    if (!take_field(input, ROOM_TAG, &said) || said.length != 2)
        return 0;
    *room = number_in(said.items, said.length);
    return *room <= MOST_ROOM;
}

/* Takes the fields that ask for walks; 0 if one is broken. */
static int take_walks(struct bytes *input, struct bytes *walks) {
    struct bytes walk;
    *walks = *input;
    while (input->length > 0 && input->items[0] == WALK_TAG)
        if (!take_field(input, WALK_TAG, &walk) || walk.length != WALK_LENGTH)
            return 0;
    walks->length -= input->length;
    return 1;
}

/* Takes a record off the start of the input; 0 if it is broken. */
static int take_record(struct bytes *input, struct record *record) {
    struct bytes atoms;
    if (!take_field(input, ATOMS_TAG, &atoms) || (atoms.length != 1 && atoms.length != 8))
        return 0;
    record->atoms = number_in(atoms.items, atoms.length);
    return take_field(input, BONDS_TAG, &record->bonds) && take_room(input, &record->room) && take_walks(input, &record->walks);
}

/* The answers. */

typedef foliocrane_answer writes_sets(uint64_t, const uint8_t *, size_t, uint64_t *, size_t);
typedef foliocrane_answer writes_bytes(uint64_t, const uint8_t *, size_t, uint8_t *, size_t);

static uint64_t lent_sets[MOST_ROOM];
static uint8_t lent_bytes[MOST_ROOM];

/* The start of a line: the number and the count of an answer. */
static void print_answer(const char *name, foliocrane_answer answer) {
    printf("%s %u %zu", name, (unsigned)answer.number, answer.count);
}

/* Lends words, and prints each as the set of bonds that it is now, after a space. */
static void print_sets(const char *name, writes_sets *function, const struct record *record) {
    for (size_t i = 0; i < record->room; i++)
        lent_sets[i] = WORD_LENT + i;
    print_answer(name, function(record->atoms, record->bonds.items, record->bonds.length, lent_sets, record->room));
    for (size_t i = 0; i < record->room; i++)
        printf(" %llx", (unsigned long long)lent_sets[i]);
    printf("\n");
}

/* So many bytes as they are lent. */
static void fill(uint8_t *bytes, size_t room, size_t lent) {
    for (size_t i = 0; i < room; i++)
        bytes[i] = (uint8_t)(lent + i);
}

/* Lends bytes, and prints the answer without them. */
static void lend_bytes(const char *name, writes_bytes *function, const struct record *record) {
    fill(lent_bytes, record->room, BYTE_LENT);
    print_answer(name, function(record->atoms, record->bonds.items, record->bonds.length, lent_bytes, record->room));
}

/* Each byte after a space, printed at one go, since walks have millions of them. */
static void print_bytes(const uint8_t *bytes, size_t room) {
    static const char digits[] = "0123456789abcdef";
    static char text[3 * MOST_ROOM + 1];
    char *end = text;
    for (size_t i = 0; i < room; i++) {
        *end++ = ' ';
        if (bytes[i] > 0xf)
            *end++ = digits[bytes[i] >> 4];
        *end++ = digits[bytes[i] & 0xf];
    }
    *end = 0;
    printf("%s", text);
}

static void print_assemblies(const struct record *record) {
    lend_bytes("assemblies", foliocrane_assemblies, record);
    print_bytes(lent_bytes, record->room);
    printf("\n");
}

/* Fields: one word of two digits a byte. */
static void print_fields(const char *name, writes_bytes *function, const struct record *record) {
    lend_bytes(name, function, record);
    for (size_t i = 0; i < record->room; i++)
        printf(i == 0 ? " %02x" : "%02x", (unsigned)lent_bytes[i]);
    printf("\n");
}

/* Every answer for a table. */
static void print_answers(const struct record *record) {
    print_answer("check", foliocrane_check(record->atoms, record->bonds.items, record->bonds.length));
    printf("\n");
    print_sets("basis", foliocrane_basis_rings, record);
    print_assemblies(record);
    print_sets("all", foliocrane_all_rings, record);
    print_sets("reduced", foliocrane_reduced_basis, record);
    print_sets("smallest", foliocrane_smallest_basis, record);
    print_fields("label", foliocrane_label, record);
    print_fields("sidecar", foliocrane_sidecar, record);
}

/* The walk that a field's content asks for: the set, the answer, each byte lent for atoms and, after a slash, each lent for bonds. */
static void print_walk(const struct record *record, const uint8_t *asked) {
    static uint8_t lent_bonds[UINT8_MAX];
    uint64_t set = number_in(asked, 8);
    size_t for_atoms = asked[8], for_bonds = asked[9];
    fill(lent_bytes, for_atoms, BYTE_LENT);
    fill(lent_bonds, for_bonds, BOND_LENT);
    printf("walk %llx", (unsigned long long)set);
    print_answer("", foliocrane_ring_walk(record->atoms, record->bonds.items, record->bonds.length, set, lent_bytes, for_atoms, lent_bonds,
                                          for_bonds));
    print_bytes(lent_bytes, for_atoms);
    printf(" /");
    print_bytes(lent_bonds, for_bonds);
    printf("\n");
}

static void print_walks(const struct record *record) {
    struct bytes left = record->walks, walk;
    while (take_field(&left, WALK_TAG, &walk))
        print_walk(record, walk.items);
}

/* The answers for every record, up to the first that is broken. */
int main(void) {
    static uint8_t given[MOST_INPUT];
    struct bytes input = {given, fread(given, 1, sizeof given, stdin)};
    for (size_t number = 1; input.length > 0; number++) {
        struct record record;
        if (!take_record(&input, &record)) {
            printf("%zu frame\n", number);
            return 0;
        }
        printf("%zu\n", number);
        if (record.walks.length > 0)
            print_walks(&record);
        else
            print_answers(&record);
    }
    return 0;
}
