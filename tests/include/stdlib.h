/* A stand-in for the C library's header, which the kit lacks: what examples/c and the programs in tests/ use, declared as the library has it. */
#pragma once
#include <stddef.h>
void *malloc(size_t size);
void free(void *memory);
