#pragma once
typedef char *va_list;
#define va_start(values, last) __builtin_va_start(values, last)
#define va_end(values) __builtin_va_end(values)
