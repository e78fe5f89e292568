#pragma once
#include <stddef.h>
void *memcpy(void *to, const void *from, size_t size);
int memcmp(const void *one, const void *other, size_t size);
char *strchr(const char *text, int byte);
int strcmp(const char *one, const char *other);
char *strerror(int number);
size_t strlen(const char *text);
char *strstr(const char *text, const char *part);
