/* The label by a plain search by walking: the other side of the benchmark. Refusals and bytes are those of foliocrane_label. */
#ifndef WALKING_H
#define WALKING_H

#include <foliocrane.h>

/* Every ring is found by walks over all bonds of the table. */
foliocrane_answer walking_label(uint64_t atoms, const uint8_t *bonds, size_t bonds_len, uint8_t *out, size_t out_len);

/* The same, with walks over those bonds only that some ring has, which the basis rings tell. */
foliocrane_answer walking_label_on_rings(uint64_t atoms, const uint8_t *bonds, size_t bonds_len, uint8_t *out, size_t out_len);

#endif
