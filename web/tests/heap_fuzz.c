/* Takes, resizes and gives blocks of the heap in web/heap.c at random, in a memory of this machine, and looks after each call whether all blocks
   hold what was put in them, and now and then whether the heap is as its comment says. The memory does not grow beyond 4 MiB, so that requests are
   refused too. usage: heap_fuzz SEED CALLS */
#include <stdint.h>
#include <stdio.h>
#include <stdlib.h>
#include <string.h>

enum { MEMORY = 4 << 20, START = 4096, LIVE = 2000 };
static unsigned char *memory;
static uint32_t memory_end = 1 << 16;
#define AT(ADDRESS) (memory + (ADDRESS))
static uint32_t grow(uint32_t bytes) {
    uint32_t whole = (bytes + 65535u) & ~65535u;
    if (whole < bytes || whole > MEMORY - memory_end) return 0;
    return memory_end += whole;
}
#include "../heap.c"

static struct { uint32_t address, bytes, mark; } live[LIVE];
static uint32_t many, refused, moved;
static uint64_t state;
static uint32_t draw(uint32_t below) {
    state = state * 6364136223846793005u + 1442695040888963407u;
    return (uint32_t)((state >> 33) % below);
}
static void fail(const char *what) {
    printf("%s\n", what);
    exit(1);
}
static unsigned char byte_of(uint32_t mark, uint32_t i) { return (unsigned char)(mark * 31 + i * 7); }
static void fill(uint32_t place, uint32_t from) {
    for (uint32_t i = from; i < live[place].bytes; i++) *AT(live[place].address + i) = byte_of(live[place].mark, i);
}
static void look(uint32_t place, uint32_t bytes) {
    for (uint32_t i = 0; i < bytes; i++)
        if (*AT(live[place].address + i) != byte_of(live[place].mark, i)) fail("a block does not hold what was put in it");
}

/* Whether the blocks follow one another, and exactly the free ones stand in the lists of their sizes. */
static void look_at_heap(void) {
    uint32_t before = 0, free_before = 0, free_blocks = 0, listed = 0, block = START;
    while (block < top) {
        uint32_t size = size_of(block), is_free = head(block)->size & FREE;
        if (size < LEAST || size % 8 || size > top - block) fail("a block has no size");
        if (head(block)->before != before) fail("a block does not know the one before it");
        if (is_free && free_before) fail("two free blocks are neighbours");
        free_blocks += is_free;
        free_before = is_free;
        before = size;
        block += size;
    }
    if (block != top || top > heap_end || heap_end > memory_end) fail("the heap has another end");
    if (free_before) fail("the last block is free");
    if (top_before != before) fail("the size of the last block is another");
    for (uint32_t list = 0; list < LISTS; list++) {
        uint32_t last = 0;
        if (!lists[list] != !(filled[list / 64] >> list % 64 & 1)) fail("a list is marked as what it is not");
        for (uint32_t it = lists[list]; it; last = it, it = links(it)->next) {
            if (!(head(it)->size & FREE) || list_of(size_of(it)) != list || links(it)->last != last) fail("a list has what is not of it");
            listed++;
        }
    }
    if (listed != free_blocks) fail("not all free blocks are listed");
}

static uint64_t some_bytes(void) {
    switch (draw(40)) {
    case 0: return draw(2) ? 0x7fff0000u - draw(3) : ~0ull - draw(20);
    case 1: return draw(1 << 20);
    case 2: case 3: case 4: return draw(1 << 14);
    default: return draw(draw(4) ? 64 : 700);
    }
}
static void add(void) {
    uint64_t bytes = some_bytes();
    uint32_t address = heap_take(bytes);
    if (!address) { refused++; return; }
    if (address % 8 || bytes > MEMORY || address < START || address + bytes > top) fail("a block is where none can be");
    live[many].address = address;
    live[many].bytes = (uint32_t)bytes;
    live[many].mark = draw(1 << 30);
    fill(many++, 0);
}
static void resize(uint32_t place) {
    uint64_t bytes = draw(3) ? live[place].bytes * 2ull + draw(9) : some_bytes();
    uint32_t had = live[place].bytes, address = heap_resize(live[place].address, bytes);
    if (!address) { refused++; look(place, had); return; }
    moved += address != live[place].address;
    live[place].address = address;
    live[place].bytes = (uint32_t)bytes;
    look(place, had < bytes ? had : (uint32_t)bytes);
    fill(place, had < bytes ? had : 0);
}
static void drop(uint32_t place) {
    look(place, live[place].bytes);
    heap_give(live[place].address);
    live[place] = live[--many];
}

int main(int count, char **words) {
    if (count != 3) return 2;
    uint32_t calls = (uint32_t)atoi(words[2]), most = LIVE;
    state = (uint64_t)atoi(words[1]);
    memory = calloc(MEMORY, 1);
    heap_begin(START, memory_end);
    for (uint32_t call = 0; call < calls; call++) {
        if (draw(2000) == 0) most = draw(4) ? 1 + draw(LIVE) : 1;
        if (many < most && draw(2)) add();
        else if (many && draw(3) == 0) resize(draw(many));
        else if (many) drop(draw(4) ? draw(many) : many - 1);
        while (many > most) drop(draw(many));
        if (call % 64 == 0) look_at_heap();
    }
    while (many) drop(draw(many));
    look_at_heap();
    if (top != START) fail("something is left");
    uint32_t one = heap_take(100);
    for (uint64_t bytes = 100; bytes < MEMORY / 2; bytes *= 2)
        if (heap_resize(one, bytes) != one) fail("a last block does not grow in place");
    printf("%u refused, %u moved\n", refused, moved);
    return 0;
}
