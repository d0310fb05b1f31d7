/* A stand-in for the C library's header, which the kit lacks: what examples/c and the programs in tests/ use, declared as the library has it. */
#pragma once
#include <stddef.h>
typedef struct _IO_FILE FILE;
extern FILE *stdout;
extern FILE *stderr;
FILE *fopen(const char *restrict name, const char *restrict mode);
int fclose(FILE *file);
int ferror(FILE *file);
int fflush(FILE *file);
size_t fread(void *restrict bytes, size_t size, size_t count, FILE *restrict file);
size_t fwrite(const void *restrict bytes, size_t size, size_t count, FILE *restrict file);
int fputs(const char *restrict text, FILE *restrict file);
int printf(const char *restrict form, ...) __attribute__((format(printf, 1, 2)));
int fprintf(FILE *restrict file, const char *restrict form, ...) __attribute__((format(printf, 2, 3)));
int sprintf(char *restrict text, const char *restrict form, ...) __attribute__((format(printf, 2, 3)));
