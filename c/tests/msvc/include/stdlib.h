#pragma once
#include <stddef.h>
void *malloc(size_t size);
void *calloc(size_t count, size_t size);
void *realloc(void *old, size_t size);
void free(void *memory);
unsigned long long strtoull(const char *text, char **end, int base);
void qsort(void *rows, size_t count, size_t size, int (*compare)(const void *one, const void *other));
__declspec(noreturn) void exit(int status);
