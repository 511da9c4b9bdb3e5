/* What the WebAssembly module has in place of a C library: a heap, and a product of 128 bits.
 *
 * The heap is the one over which the library allocates: the three functions that the toolchain's
 * library `libc` declares and calls (`rattle_alloc`, `rattle_realloc`, `rattle_dealloc`).
 * scripts/build_web_module.py connects them. Nothing proves this file. It takes the place that
 * malloc has in a program in C.
 *
 * A block has a header with its class. Class c has blocks of 2^c bytes, headers included. Freed
 * blocks of a class form a list. A new block is cut from the end of the used memory, which grows by
 * the page. */
typedef unsigned long long u64;
typedef unsigned char byte;

enum { PAGE = 65536, HEADER = 16, LEAST = 5, CLASSES = 48 };

typedef struct block {
    u64 class;
    struct block *next;
} block;

extern byte __heap_base;
static block *freed[CLASSES];
static u64 used, end;

/* Where a host writes the first arguments, before it has memory of its own. */
byte gixp_scratch[256] __attribute__((aligned(16)));

static int grow(u64 needed) {
    u64 pages = (needed - end + PAGE - 1) / PAGE;
    if (__builtin_wasm_memory_grow(0, pages) == (u64)-1)
        return 0;
    end += pages * PAGE;
    return 1;
}

static block *cut(u64 class) {
    u64 size = (u64)1 << class;
    if (end == 0) {
        used = ((u64)&__heap_base + 15) & ~(u64)15;
        end = __builtin_wasm_memory_size(0) * PAGE;
    }
    if (used + size > end && !grow(used + size))
        return 0;
    block *made = (block *)used;
    used += size;
    made->class = class;
    return made;
}

static u64 class_of(u64 n) {
    u64 whole = n + HEADER;
    u64 class = 64 - __builtin_clzll(whole - 1);
    return class < LEAST ? LEAST : class;
}

void *gixp_heap_take(u64 n) {
    if (n > (u64)1 << (CLASSES - 2))
        return 0;
    u64 class = class_of(n);
    block *found = freed[class];
    if (found)
        freed[class] = found->next;
    else if (!(found = cut(class)))
        return 0;
    return (byte *)found + HEADER;
}

void gixp_heap_give(void *at) {
    block *given = (block *)((byte *)at - HEADER);
    given->next = freed[given->class];
    freed[given->class] = given;
}

void *gixp_heap_resize(void *at, u64 kept, u64 n) {
    block *old = (block *)((byte *)at - HEADER);
    if (n <= ((u64)1 << (CLASSES - 2)) && class_of(n) == old->class)
        return at;
    void *found = gixp_heap_take(n);
    if (found) {
        __builtin_memcpy(found, at, kept < n ? kept : n);
        gixp_heap_give(at);
    }
    return found;
}

/* The product of two numbers of 128 bits, which LLVM calls by this name. It may not multiply
 * numbers of 128 bits itself. */
typedef unsigned __int128 u128;

u128 __multi3(u128 x, u128 y) {
    u64 a = (u64)x, b = (u64)y;
    u64 a0 = a & 0xffffffff, a1 = a >> 32, b0 = b & 0xffffffff, b1 = b >> 32;
    u64 low = a0 * b0, cross = a1 * b0 + (low >> 32), other = a0 * b1 + (cross & 0xffffffff);
    u64 high = a1 * b1 + (cross >> 32) + (other >> 32) + a * (u64)(y >> 64) + (u64)(x >> 64) * b;
    return (u128)high << 64 | (other << 32 | (low & 0xffffffff));
}
