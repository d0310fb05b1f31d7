/* A stand-in for the C library's header, which the kit lacks: what examples/c and the programs in tests/ use, declared as the library has it. */
#pragma once
#include <stddef.h>
typedef unsigned long pthread_t;
typedef union { char size[56]; long align; } pthread_attr_t;
int pthread_attr_init(pthread_attr_t *attributes);
int pthread_attr_setstack(pthread_attr_t *attributes, void *stack, size_t size);
int pthread_create(pthread_t *restrict thread, const pthread_attr_t *restrict attributes, void *(*work)(void *), void *restrict with);
int pthread_join(pthread_t thread, void **left);
