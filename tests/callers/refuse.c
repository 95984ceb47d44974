// A library that refuses one request for memory, and counts what is requested and freed.
//
// LD_PRELOAD loads it before the C library. A request is a call of malloc or realloc. With REFUSE=N
// in the environment, request number N is refused, and a line on standard error says so; requests
// are counted from 1. With COUNT=1, the last line on standard error has the numbers of the process:
//
//     memory: 36 taken 36 freed 232315 bytes
//
// `taken` counts the blocks that were given out, and `bytes` are all bytes that were requested. This
// file includes no header, so the kit's clang can build it.
void *__libc_malloc(unsigned long size);
void *__libc_realloc(void *old, unsigned long size);
void __libc_free(void *old);
char *getenv(const char *name);
long atol(const char *text);
int dprintf(int file, const char *form, ...);
long write(int file, const void *bytes, unsigned long size);

static long requests, taken, freed, bytes;

static int refuses(unsigned long size) {
    const char *number = getenv("REFUSE");
    bytes += (long)size;
    if (++requests != (number ? atol(number) : 0))
        return 0;
    write(2, "request refused\n", 16);
    return 1;
}

void *malloc(unsigned long size) {
    void *block = refuses(size) ? 0 : __libc_malloc(size);
    taken += block != 0;
    return block;
}

void *realloc(void *old, unsigned long size) {
    void *block = refuses(size) ? 0 : __libc_realloc(old, size);
    taken += block != 0 && old == 0;
    return block;
}

void free(void *block) {
    freed += block != 0;
    __libc_free(block);
}

__attribute__((destructor)) static void report(void) {
    long all = taken, back = freed;
    if (getenv("COUNT"))
        dprintf(2, "memory: %ld taken %ld freed %ld bytes\n", all, back, bytes);
}
