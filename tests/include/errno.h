/* A stand-in for the C library's header, which the kit lacks: what examples/c and the programs in tests/ use, declared as the library has it. */
#pragma once
int *__errno_location(void);
#define errno (*__errno_location())
