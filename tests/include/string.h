/* A stand-in for the C library's header, which the kit lacks: what examples/c and the programs in tests/ use, declared as the library has it. */
#pragma once
#include <stddef.h>
int memcmp(const void *one, const void *other, size_t length);
void *memset(void *memory, int byte, size_t length);
size_t strlen(const char *text);
size_t strspn(const char *text, const char *set);
char *strerror(int number);
