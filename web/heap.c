/* The heap of the program in WebAssembly. The memory from `heap_start` to `heap_end` is blocks, one after another, and then what was never taken
   (from `top` on). A block begins with a head of 8 bytes: the size of the block before it, and its own size with the mark FREE. Sizes are multiples
   of 8, so what is given out stands at a multiple of 8. No two free blocks are neighbours, and the last block is never free. Free blocks are listed
   by size: one list for each size below 512 bytes, above that eight for each doubling. A block that is made larger grows in place where it can.
   A native test includes this file with its own AT and grow. */
typedef unsigned long long u64;
typedef unsigned int u32;
typedef unsigned char u8;

#ifndef AT
#define AT(ADDRESS) ((u8 *)(__UINTPTR_TYPE__)(ADDRESS))
/* The end of the memory after it grew by at least so many bytes, or 0. */
static u32 grow(u32 bytes) {
    u32 pages = (bytes >> 16) + ((bytes & 65535) != 0), before = (u32)__builtin_wasm_memory_grow(0, pages);
    return before == (u32)-1 ? 0 : (before + pages) << 16;
}
#endif

enum { HEAD = 8, FREE = 1, LEAST = 16, EXACT = 64, LISTS = EXACT + 8 * 22 };
#define MOST 0x7fff0000u /* no request of more is granted, and no sum of a size and an address below 2 GiB wraps */

struct head { u32 before, size; };
struct link { u32 next, last; }; /* of a free block, after its head; 0 is none */
static u32 top, top_before, heap_end;
static u32 lists[LISTS];
static u64 filled[(LISTS + 63) / 64];

static struct head *head(u32 block) { return (struct head *)AT(block); }
static struct link *links(u32 block) { return (struct link *)AT(block + HEAD); }
static u32 size_of(u32 block) { return head(block)->size & ~(u32)FREE; }

/* The list in which a free block of this size stands. */
static u32 list_of(u32 size) {
    if (size < EXACT * 8) return size / 8;
    u32 doubling = 31 - (u32)__builtin_clz(size);
    return EXACT + 8 * (doubling - 9) + (size >> (doubling - 3) & 7);
}

static void put_in_list(u32 block) {
    u32 list = list_of(size_of(block)), next = lists[list];
    *links(block) = (struct link){next, 0};
    if (next) links(next)->last = block;
    lists[list] = block;
    filled[list / 64] |= 1ull << list % 64;
}

static void take_from_list(u32 block) {
    struct link at = *links(block);
    u32 list = list_of(size_of(block));
    if (at.next) links(at.next)->last = at.last;
    if (at.last) links(at.last)->next = at.next;
    else if (!(lists[list] = at.next)) filled[list / 64] &= ~(1ull << list % 64);
}

/* Gives a block its size, and says it to the one after it. */
static void set_size(u32 block, u32 size, u32 mark) {
    head(block)->size = size | mark;
    if (block + size == top) top_before = size;
    else head(block + size)->before = size;
}

/* Makes a block free that stands in no list, with its neighbours if they are. */
static void release(u32 block) {
    u32 size = size_of(block), before = head(block)->before, next = block + size;
    if (next != top && head(next)->size & FREE) {
        take_from_list(next);
        size += size_of(next);
    }
    if (before && head(block - before)->size & FREE) {
        block -= before;
        take_from_list(block);
        size += before;
    }
    if (block + size == top) {
        top = block;
        top_before = head(block)->before;
    } else {
        set_size(block, size, FREE);
        put_in_list(block);
    }
}

/* Cuts a taken block down to a size, if what is left makes a block. */
static void cut(u32 block, u32 size) {
    u32 had = size_of(block);
    if (had - size < LEAST) return;
    set_size(block, size, 0);
    set_size(block + size, had - size, 0);
    release(block + size);
}

/* Whether `top` can be moved up to this address. */
static int reach(u32 address) {
    if (address <= heap_end) return 1;
    u32 lacks = address - heap_end, more = lacks + heap_end / 8 + (1 << 20), end;
    if ((end = grow(more)) || (end = grow(lacks))) heap_end = end;
    return address <= heap_end;
}

/* The size of a block for so many bytes, or 0 if that is more than the heap grants. */
static u32 block_size(u64 bytes) { return bytes > MOST ? 0 : bytes <= 8 ? LEAST : (u32)(bytes + HEAD + 7) & ~7u; }

/* A free block of at least this size, out of its list; or 0. */
static u32 found(u32 size) {
    u32 list = list_of(size);
    if (size >= EXACT * 8) { /* blocks of this list may be smaller */
        u32 tries = 8;
        for (u32 block = lists[list++]; block && tries--; block = links(block)->next)
            if (size_of(block) >= size) return take_from_list(block), block;
    }
    for (u32 word = list / 64; word < sizeof filled / sizeof *filled; word++) {
        u64 some = word == list / 64 ? filled[word] & ~0ull << list % 64 : filled[word];
        if (!some) continue;
        u32 block = lists[word * 64 + (u32)__builtin_ctzll(some)];
        return take_from_list(block), block;
    }
    return 0;
}

/* The address of so many bytes, or 0. */
static u32 heap_take(u64 bytes) {
    u32 size = block_size(bytes), block = size ? found(size) : 0;
    if (block) {
        head(block)->size &= ~(u32)FREE;
        cut(block, size);
        return block + HEAD;
    }
    if (!size || !reach(top + size)) return 0;
    block = top;
    *head(block) = (struct head){top_before, size};
    top += size;
    top_before = size;
    return block + HEAD;
}

static void heap_give(u32 address) { release(address - HEAD); }

/* Whether a block can be made so large where it stands; then it is. */
static int grows_in_place(u32 block, u32 size) {
    u32 had = size_of(block), next = block + had;
    if (next == top) {
        if (reach(block + size)) top = block + size, set_size(block, size, 0);
        return next != top;
    }
    if (!(head(next)->size & FREE) || had + size_of(next) < size) return 0;
    take_from_list(next);
    set_size(block, had + size_of(next), 0);
    cut(block, size);
    return 1;
}

/* The address of the bytes after their number changed, or 0: then they stay as they were. */
static u32 heap_resize(u32 address, u64 bytes) {
    u32 block = address - HEAD, had = size_of(block), size = block_size(bytes);
    if (!size) return 0;
    if (size <= had) return cut(block, size), address;
    if (grows_in_place(block, size)) return address;
    u32 other = heap_take(bytes);
    if (!other) return 0;
    __builtin_memcpy(AT(other), AT(address), had - HEAD);
    heap_give(address);
    return other;
}

/* The heap begins at this address, a multiple of 8, and has the memory up to that one. */
static void heap_begin(u32 start, u32 end) { top = start, heap_end = end; }
