/* A stand-in for the C library's header, which the kit lacks: what examples/c and the programs in tests/ use, declared as the library has it. */
#pragma once
#include <stdint.h>
#define PRIu64 __UINT64_FMTu__
