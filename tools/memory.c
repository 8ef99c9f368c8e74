// What the library calls of C's memory functions, for a machine without a C library: WebAssembly. tools/build-for links it into metlazuel.wasm.
typedef __SIZE_TYPE__ size;

void *memcpy(void *restrict to, const void *restrict from, size n);
void *memmove(void *to, const void *from, size n);
void *memset(void *to, int byte, size n);

void *memcpy(void *restrict to, const void *restrict from, size n)
{
    unsigned char *t = to;
    for (const unsigned char *f = from; n != 0; n--)
        *t++ = *f++;
    return to;
}

void *memmove(void *to, const void *from, size n)
{
    unsigned char *t = to;
    const unsigned char *f = from;
    if (t < f)
        return memcpy(to, from, n);
    while (n-- != 0)
        t[n] = f[n];
    return to;
}

void *memset(void *to, int byte, size n)
{
    for (unsigned char *t = to; n != 0; n--)
        *t++ = (unsigned char)byte;
    return to;
}
