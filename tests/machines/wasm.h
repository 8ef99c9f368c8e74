// What the tests use of C's headers, for WebAssembly: the kit's clang brings none. wasm.mjs has printf and exit, tools/memory.c and wasm.c the rest.
#ifndef WASM_H
#define WASM_H

typedef __UINT8_TYPE__ uint8_t;
typedef __UINT16_TYPE__ uint16_t;
typedef __UINT32_TYPE__ uint32_t;
typedef __UINT64_TYPE__ uint64_t;
typedef __INT32_TYPE__ int32_t;
typedef __UINTPTR_TYPE__ uintptr_t;
typedef __SIZE_TYPE__ size_t;

#define UINT32_MAX __UINT32_MAX__
#define NULL ((void *)0)

int printf(const char *form, ...);
_Noreturn void exit(int status);
void *memcpy(void *restrict to, const void *restrict from, size_t n);
void *memmove(void *to, const void *from, size_t n);
void *memset(void *to, int byte, size_t n);
int memcmp(const void *a, const void *b, size_t n);

#endif
