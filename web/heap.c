// The heap: what a block of memory is taken from, and where it goes back to. shim.c includes this file, and so does tests/web/heap.c.
//
// Blocks have one of some sizes, four to each doubling, and each size has a list of its free blocks. A new block comes from the end of what
// was taken of memory so far. Each is aligned to 16 bytes, as the program needs, and has 16 bytes before it that say its kind.
#include "integers.h"

#define PAGE 65536UL
#define KINDS 128
// No block can be larger than memory. Sizes near 2^64 end here, before any sum of them could run over.
#define LARGEST (1UL << 32)

struct head {
    u64 kind;
    struct head *next;
};
static struct head *free_of[KINDS];
static byte *top, *end;
// The linker's name for where memory is free.
extern byte __heap_base;

// The smallest kind that holds so many bytes.
static u32 kind_of(u64 size) {
    if (size <= 64) return size ? (u32)((size - 1) / 16) : 0;
    u32 doubling = 63 - (u32)__builtin_clzl(size - 1);
    return (doubling - 6) * 4 + 4 + (u32)(((size - 1) >> (doubling - 2)) & 3);
}

static u64 size_of_kind(u32 kind) {
    if (kind < 4) return (kind + 1) * 16UL;
    u32 doubling = (kind - 4) / 4 + 6, quarter = (kind - 4) % 4;
    return (1UL << doubling) + (quarter + 1) * (1UL << (doubling - 2));
}

// Has memory reach up to there, and says whether it does. Made for addresses of 32 bits, memory.grow says no by 2^32 - 1, and not by -1: the
// upper half of its answer is not to be looked at.
static i32 reach(byte *to) {
    if (to <= end) return 1;
    u64 pages = ((u64)(to - end) + PAGE - 1) / PAGE;
    if ((u32)__builtin_wasm_memory_grow(0, pages) == ~0U) return 0;
    end += pages * PAGE;
    return 1;
}

// A block of at least so many bytes, or 0.
static byte *take(u64 size) {
    if (size > LARGEST) return 0;
    u32 kind = kind_of(size);
    struct head *head = free_of[kind];
    if (head) {
        free_of[kind] = head->next;
        return (byte *)(head + 1);
    }
    if (!top) {
        top = (byte *)(((u64)&__heap_base + 15) & ~15UL);
        end = (byte *)(__builtin_wasm_memory_size(0) * PAGE);
    }
    byte *after = top + sizeof(struct head) + size_of_kind(kind);
    if (!reach(after)) return 0;
    head = (struct head *)top;
    top = after;
    head->kind = kind;
    return (byte *)(head + 1);
}

static void give_back(byte *block) {
    if (!block) return;
    struct head *head = (struct head *)block - 1;
    head->next = free_of[head->kind];
    free_of[head->kind] = head;
}

// The block with at least so many bytes, with what stood in it; it may be another one. Where there is no memory: 0, and the block as it was.
static byte *resize(byte *block, u64 size) {
    struct head *head = (struct head *)block - 1;
    u64 had = size_of_kind((u32)head->kind);
    if (size <= had) return block;
    if (size > LARGEST) return 0;
    if (block + had == top) {
        // The last block grows where it is.
        u32 kind = kind_of(size);
        byte *after = block + size_of_kind(kind);
        if (!reach(after)) return 0;
        top = after;
        head->kind = kind;
        return block;
    }
    byte *other = take(size);
    if (!other) return 0;
    __builtin_memcpy(other, block, had);
    give_back(block);
    return other;
}
