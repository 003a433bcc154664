/* The kit has a C library and no headers of it: these five files declare what the C programs here use. */
#ifndef STDDEF_H
#define STDDEF_H

typedef __SIZE_TYPE__ size_t;

#endif
