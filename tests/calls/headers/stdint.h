#ifndef STDINT_H
#define STDINT_H

#define UINT8_MAX __UINT8_MAX__

typedef __UINT8_TYPE__ uint8_t;
typedef __UINT64_TYPE__ uint64_t;

#endif
