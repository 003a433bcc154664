#ifndef STDIO_H
#define STDIO_H

#include <stddef.h>

typedef struct file FILE;
extern FILE *stdin;

size_t fread(void *to, size_t width, size_t length, FILE *from);
int printf(const char *format, ...) __attribute__((format(printf, 1, 2)));
int snprintf(char *to, size_t room, const char *format, ...) __attribute__((format(printf, 3, 4)));

#endif
