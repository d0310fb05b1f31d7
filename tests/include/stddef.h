/* A stand-in for the C library's header, which the kit lacks: what examples/c and the programs in tests/ use, declared as the library has it. */
#pragma once
typedef __SIZE_TYPE__ size_t;
#define NULL ((void *)0)
