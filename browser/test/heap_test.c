/* A test of browser/wasm/heap.c: takes, resizes and frees blocks by drawn numbers, and sees each time that no two blocks share a byte, that
   each holds what was written to it, and that the chain of blocks and the lists of free ones hold together. */
#include "heap.c"

extern u8 __heap_base;
u8 *memory_base(void) { return &__heap_base; }
u64 memory_pages(void) { return __builtin_wasm_memory_size(0); }
long memory_grow(u64 pages) { return __builtin_wasm_memory_grow(0, pages); }

#define BLOCKS 400
static struct { u8 *at; u64 length; u8 mark; } kept[BLOCKS];
static u64 state;
static u64 refused;

static u64 draw(u64 below)
{
    state = state * 6364136223846793005UL + 1442695040888963407UL;
    return (state >> 33) % below;
}
/* Most blocks are small, some are as large as pages. */
static u64 draw_length(void)
{
    u64 kind = draw(100);
    return kind < 70 ? draw(200) : kind < 95 ? draw(5000) : draw(300000);
}

/* Whether the chain goes from the first block to the last one, no two neighbours are free, and each free block is in its list. */
static int is_whole(void)
{
    u64 base = ((u64)memory_base() + GRAIN - 1) & ~(GRAIN - 1), free_blocks = 0, listed = 0, used = 0;
    struct block *it = (struct block *)base, *before = 0;
    for (; it != last; before = it, it = after(it)) {
        if (it->before != before || it > last || held(it) < GRAIN || held(it) % GRAIN) return 0;
        if (before && before->held & it->held & FREE) return 0;
        if (it->held & FREE) free_blocks++;
        else used += held(it);
    }
    if (it->before != before || it->held || (u64)last != memory_pages() * PAGE - HEADER || used != live) return 0;
    for (u64 class = 0; class < CLASSES; class++) {
        if (!lists[class] != !(filled[class / 64] >> class % 64 & 1)) return 0;
        for (struct block *one = lists[class], *previous = 0; one; previous = one, one = one->next, listed++)
            if (!(one->held & FREE) || one->previous != previous || class_of(held(one) / GRAIN) != class) return 0;
    }
    return listed == free_blocks;
}
static int holds(u64 i)
{
    for (u64 k = 0; k < kept[i].length; k++) if (kept[i].at[k] != kept[i].mark) return 0;
    return 1;
}
static void fill(u64 i, u8 *at, u64 length)
{
    kept[i].at = at;
    kept[i].length = length;
    kept[i].mark = draw(255) + 1;
    for (u64 k = 0; k < length; k++) at[k] = kept[i].mark;
}
static int resized(u64 i)
{
    u64 length = draw_length(), common = length < kept[i].length ? length : kept[i].length;
    u8 *to = heap_resize(kept[i].at, kept[i].length, length);
    if (!to) { refused++; return holds(i); }
    for (u64 k = 0; k < common; k++) if (to[k] != kept[i].mark) return 0;
    fill(i, to, length);
    return 1;
}
static int step(void)
{
    u64 i = draw(BLOCKS);
    if (!kept[i].at) {
        u64 length = draw_length();
        u8 *at = heap_take(length);
        if (at && (u64)at % GRAIN) return 0;
        if (at) fill(i, at, length);
        else refused++;
        return 1;
    }
    if (!holds(i)) return 0;
    if (draw(3) == 0) return resized(i);
    heap_free(kept[i].at);
    kept[i].at = 0;
    return 1;
}

/* 0, or the number of the step after which something is wrong; at the end all is freed, and one free block has to be left. */
u64 test_heap(u64 seed, u64 steps, u64 pages)
{
    state = seed;
    heap_limit(pages);
    for (u64 n = 1; n <= steps; n++) if (!step() || (n % 16 == 0 && last && !is_whole())) return n;
    for (u64 i = 0; i < BLOCKS; i++) {
        if (kept[i].at && !holds(i)) return steps + 1;
        heap_free(kept[i].at);
        kept[i].at = 0;
    }
    struct block *first = last->before;
    return is_whole() && !first->before && first->held & FREE && !live ? 0 : steps + 2;
}
u64 test_refused(void) { return refused; }
u64 test_pages(void) { return memory_pages(); }
u64 test_huge(void) { return heap_take(~0UL) || heap_take(1UL << 36) || heap_take((1UL << 36) + 1); }
