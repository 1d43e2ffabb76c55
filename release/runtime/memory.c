/* What the engine takes from a C library, for WebAssembly, and the two functions by which a host
 * takes memory. The memory has 64-bit addresses here, and `wasm-opt` lowers them to 32 bits later.
 *
 * Blocks stand one behind the other, each behind its size. A block that is given back, or grows, is
 * reused only if it is the last one. A call of the engine keeps no memory, so a host forgets all of
 * it at once. Blocks are aligned to 16 bytes. */
#define EXPORT(name) __attribute__((export_name(name)))

typedef __SIZE_TYPE__ size_t;

#define ALIGNMENT ((size_t)16)
#define PAGE ((size_t)65536)
/* Where the addresses of a lowered memory end. */
#define MOST_MEMORY ((size_t)1 << 32)

/* The linker defines where the data ends. */
extern unsigned char __heap_base;

/* Where the last block ends. Before the first block it is 0. */
static size_t top = 0;

static size_t rounded(size_t size)
{
    return (size + ALIGNMENT - 1) & ~(ALIGNMENT - 1);
}

static size_t *size_of(void *block)
{
    return (size_t *)((char *)block - ALIGNMENT);
}

static int is_last(void *block)
{
    return (size_t)block + *size_of(block) == top;
}

/* Makes the last block end there. Returns whether there is memory for it. */
static int move_top(size_t end)
{
    size_t pages = __builtin_wasm_memory_size(0);
    if (end > pages * PAGE) {
        size_t more = (end - pages * PAGE + PAGE - 1) / PAGE;
        /* Refused, the answer is -1, which the lowering may have made of 32 bits. */
        if (__builtin_wasm_memory_grow(0, more) >= MOST_MEMORY / PAGE) {
            return 0;
        }
    }
    top = end;
    return 1;
}

EXPORT("cfgx_take") void *malloc(size_t size)
{
    size_t start = rounded(top == 0 ? (size_t)&__heap_base : top) + ALIGNMENT;
    if (size > MOST_MEMORY - ALIGNMENT || rounded(size) >= MOST_MEMORY - start
        || !move_top(start + rounded(size))) {
        return 0;
    }
    *size_of((void *)start) = rounded(size);
    return (void *)start;
}

/* Forgets a block, and each one that was taken after it. */
EXPORT("cfgx_forget") void forget(void *block)
{
    top = (size_t)block - ALIGNMENT;
}

void free(void *block)
{
    if (is_last(block)) {
        forget(block);
    }
}

void *memcpy(void *to, const void *from, size_t size)
{
    return __builtin_memcpy(to, from, size);
}

void *realloc(void *block, size_t size)
{
    size_t old = *size_of(block);
    if (size <= old) {
        return block;
    }
    if (is_last(block)) {
        size_t grown = size <= MOST_MEMORY ? rounded(size) : size;
        if (grown >= MOST_MEMORY - (size_t)block || !move_top((size_t)block + grown)) {
            return 0;
        }
        *size_of(block) = grown;
        return block;
    }
    void *other = malloc(size);
    return other == 0 ? 0 : memcpy(other, block, old);
}

void *memmove(void *to, const void *from, size_t size)
{
    return __builtin_memmove(to, from, size);
}

void *memset(void *to, int byte, size_t size)
{
    return __builtin_memset(to, byte, size);
}

int memcmp(const void *one, const void *other, size_t size)
{
    const unsigned char *left = one, *right = other;
    size_t i = 0;
    while (i < size && left[i] == right[i]) {
        i++;
    }
    return i == size ? 0 : left[i] - right[i];
}

/* Returns a product of 128 bits, which the compiler asks for by this name. */
unsigned __int128 __multi3(unsigned __int128 one, unsigned __int128 other)
{
    typedef unsigned long long word;
    const word half = 0xffffffff;
    word left = (word)one, right = (word)other;
    word low = (left & half) * (right & half);
    word middle = (left >> 32) * (right & half) + (low >> 32);
    word carried = (left & half) * (right >> 32) + (middle & half);
    word high = (left >> 32) * (right >> 32) + (middle >> 32) + (carried >> 32);
    high += left * (word)(other >> 64) + (word)(one >> 64) * right;
    return (unsigned __int128)high << 64 | carried << 32 | (low & half);
}
