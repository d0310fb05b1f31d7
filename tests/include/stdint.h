/* A stand-in for the C library's header, which the kit lacks: what examples/c and the programs in tests/ use, declared as the library has it. */
#pragma once
typedef __UINT8_TYPE__ uint8_t;
typedef __UINT64_TYPE__ uint64_t;
typedef __UINTPTR_TYPE__ uintptr_t;
#define UINT64_MAX __UINT64_MAX__
#define UINTPTR_MAX __UINTPTR_MAX__
