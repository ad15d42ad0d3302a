/* The heap of a module: blocks that stand one behind another, from the end of the module's data to the end of its memory.
   A block begins with 16 bytes: the block before it, and how many bytes it holds. Free blocks stand in lists by size. No two of them are
   neighbours, since a block that becomes free is joined with those beside it. The last block holds nothing and is never free. */
typedef unsigned long u64;
typedef unsigned char u8;

#define GRAIN 16UL
#define HEADER 16UL
#define PAGE 65536UL
#define LARGEST (1UL << 36)
#define CLASSES 640
#define FREE 1UL

struct block {
    struct block *before;
    u64 held;                          /* bytes, a multiple of 16; and FREE */
    struct block *next, *previous;     /* in the list, where it is free */
};

/* What the memory gives: where it begins, how many pages it has, and more of them (-1 where there are none). */
u8 *memory_base(void);
u64 memory_pages(void);
long memory_grow(u64 pages);

static struct block *lists[CLASSES];
static u64 filled[CLASSES / 64];       /* a bit for each list that isn't empty */
static struct block *last;
static u64 most_pages = LARGEST / PAGE;
static u64 live, peak;

static u64 held(struct block *it) { return it->held & ~FREE; }
static struct block *after(struct block *it) { return (struct block *)((u8 *)it + HEADER + held(it)); }
static u64 logarithm(u64 n) { return 63 - __builtin_clzl(n); }

/* The list of blocks of so many grains: small sizes have one each, and each power of two has 16. */
static u64 class_of(u64 grains)
{
    if (grains < 64) return grains;
    u64 high = logarithm(grains);
    return 64 + (high - 6) * 16 + (grains >> (high - 4) & 15);
}

static void put_in(struct block *it)
{
    u64 class = class_of(held(it) / GRAIN);
    it->held |= FREE;
    it->previous = 0;
    it->next = lists[class];
    if (it->next) it->next->previous = it;
    lists[class] = it;
    filled[class / 64] |= 1UL << class % 64;
}

static void take_out(struct block *it)
{
    u64 class = class_of(held(it) / GRAIN);
    if (it->next) it->next->previous = it->previous;
    if (it->previous) it->previous->next = it->next;
    else lists[class] = it->next;
    if (!lists[class]) filled[class / 64] &= ~(1UL << class % 64);
    it->held &= ~FREE;
}

/* A free block for so many bytes, or 0. Every block of the list from which it is taken is large enough. */
static struct block *find(u64 bytes)
{
    u64 grains = bytes / GRAIN;
    u64 class = class_of(grains);
    struct block *first = lists[class];
    if (first && held(first) >= bytes) return first;
    if (grains >= 64) class = class_of(grains + (1UL << (logarithm(grains) - 4)) - 1);
    u64 bits = filled[class / 64] & ~0UL << class % 64;
    for (u64 word = class / 64; ; bits = filled[word]) {
        if (bits) return lists[word * 64 + __builtin_ctzl(bits)];
        if (++word == CLASSES / 64) return 0;
    }
}

/* Makes the block hold the bytes of the one behind it, too. */
static void swallow(struct block *it)
{
    struct block *gone = after(it);
    take_out(gone);
    it->held += HEADER + held(gone);
    after(it)->before = it;
}

static void set_free(struct block *it)
{
    if (after(it)->held & FREE) swallow(it);
    struct block *before = it->before;
    if (before && before->held & FREE) {
        take_out(before);
        before->held += HEADER + held(it);
        after(before)->before = before;
        it = before;
    }
    put_in(it);
}

/* Gives what the block holds above so many bytes back, where that is a block. */
static void cut(struct block *it, u64 bytes)
{
    u64 rest = held(it) - bytes;
    if (rest < HEADER + GRAIN) return;
    it->held = bytes;
    struct block *part = after(it);
    part->before = it;
    part->held = rest - HEADER;
    after(part)->before = part;
    set_free(part);
}

static int begin(void)
{
    u64 base = ((u64)memory_base() + GRAIN - 1) & ~(GRAIN - 1);
    u64 end = (u64)memory_base() - (u64)memory_base() % PAGE + PAGE;
    if (end < base + 4 * HEADER) end += PAGE;
    if (end > memory_pages() * PAGE && memory_grow(1) < 0) return 0;
    struct block *first = (struct block *)base;
    first->before = 0;
    last = (struct block *)(memory_pages() * PAGE - HEADER);
    first->held = (u64)last - base - HEADER;
    last->before = first;
    last->held = 0;
    put_in(first);
    return 1;
}

static int add_pages(u64 pages)
{
    if (pages > most_pages || memory_pages() > most_pages - pages || memory_grow(pages) < 0) return 0;
    struct block *it = last;
    it->held = pages * PAGE - HEADER;
    last = after(it);
    last->before = it;
    last->held = 0;
    set_free(it);
    return 1;
}

/* Makes room for a block of so many bytes at the end of the memory: an eighth of the memory more, or just what is needed. */
static int add_room(u64 bytes)
{
    struct block *end = last->before;
    u64 there = end->held & FREE ? HEADER + held(end) : 0;
    u64 needed = (bytes + HEADER - (there < bytes ? there : 0) + PAGE - 1) / PAGE;
    u64 more = memory_pages() / 8;
    return more > needed && add_pages(more) || add_pages(needed);
}

/* A block for so many bytes, or 0 where there is no memory for it. */
void *heap_take(u64 bytes)
{
    if (bytes > LARGEST) return 0;
    bytes = bytes ? (bytes + GRAIN - 1) & ~(GRAIN - 1) : GRAIN;
    if (!last && !begin()) return 0;
    struct block *it = find(bytes);
    if (!it && !(add_room(bytes) && (it = find(bytes)))) return 0;
    take_out(it);
    cut(it, bytes);
    live += held(it);
    if (live > peak) peak = live;
    return (u8 *)it + HEADER;
}

void heap_free(void *at)
{
    if (!at) return;
    struct block *it = (struct block *)((u8 *)at - HEADER);
    live -= held(it);
    set_free(it);
}

/* A block for `bytes` that begins with the `kept` first bytes of this one, which it replaces; or 0, and then the old one stands. */
void *heap_resize(void *at, u64 kept, u64 bytes)
{
    struct block *it = (struct block *)((u8 *)at - HEADER);
    if (bytes > LARGEST) return 0;
    bytes = bytes ? (bytes + GRAIN - 1) & ~(GRAIN - 1) : GRAIN;
    u64 was = held(it);
    if (bytes > was && after(it)->held & FREE && was + HEADER + held(after(it)) >= bytes) swallow(it);
    if (bytes <= held(it)) {
        cut(it, bytes);
        live += held(it) - was;
        if (live > peak) peak = live;
        return at;
    }
    void *to = heap_take(bytes);
    if (!to) return 0;
    __builtin_memcpy(to, at, kept < was ? kept : was);
    heap_free(at);
    return to;
}

void heap_limit(u64 pages) { most_pages = pages; }
u64 heap_live(void) { return live; }
u64 heap_peak(void) { return peak; }
