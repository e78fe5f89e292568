#pragma once
#include <stdarg.h>
#include <stddef.h>
typedef struct FILE FILE;
FILE *__acrt_iob_func(unsigned number);
#define stdin (__acrt_iob_func(0))
#define stdout (__acrt_iob_func(1))
#define stderr (__acrt_iob_func(2))
FILE *fopen(const char *name, const char *mode);
size_t fread(void *to, size_t size, size_t count, FILE *file);
int ferror(FILE *file);
int fflush(FILE *file);
int _fileno(FILE *file);
int putchar(int byte);
int printf(const char *format, ...);
int vprintf(const char *format, va_list values);
int fprintf(FILE *file, const char *format, ...);
int snprintf(char *text, size_t room, const char *format, ...);
int vsnprintf(char *text, size_t room, const char *format, va_list values);
