/* What a program of the kit asks of the C library, for a module of WebAssembly with memory of 64 bits: a heap, the words of its command
   line, standard input and output in memory. It has no threads. What isn't here traps. An instance runs once: `host_run` is called after
   the words and the input are there, and the page makes a new instance for the next call. */
typedef unsigned long u64;
typedef long i64;
typedef unsigned char u8;

#define PAGE 65536UL
#define STATUS_NO_MEMORY 5
enum { EAGAIN_ = 11, ENOMEM_ = 12, ESPIPE_ = 29 };

void *heap_take(u64 bytes);
void heap_free(void *at);
void *heap_resize(void *at, u64 kept, u64 bytes);
void heap_limit(u64 pages);
u64 heap_peak(void);

extern u8 __heap_base;
u8 *memory_base(void) { return &__heap_base; }
u64 memory_pages(void) { return __builtin_wasm_memory_size(0); }
i64 memory_grow(u64 pages) { return __builtin_wasm_memory_grow(0, pages); }

/* ---- What the page calls ---- */

struct bytes { u8 *at; u64 length, room; };
static struct bytes words, in, out;
static u64 in_read;
static u8 said[2048];                  /* what was written to standard error, as far as there is room */
static u64 said_length;
static int has_no_room;                /* the host itself found no memory for the words, the input or the output */

static u8 *room_for(struct bytes *what, u64 length)
{
    what->at = heap_take(length);
    what->length = what->at ? length : 0;
    has_no_room |= !what->at;
    return what->at;
}

/* The whole memory, in pages of 64 KiB. Call it first. */
void host_limit(u64 pages) { heap_limit(pages); }
/* Where the page writes so many bytes: the words, each ended by a zero byte, and the input. 0 where they don't fit: then the
   status is 5. */
u8 *host_words(u64 length) { return room_for(&words, length); }
u8 *host_in(u64 length) { return room_for(&in, length); }
u8 *host_out(void) { return out.at; }
u64 host_out_length(void) { return out.length; }
u8 *host_said(void) { return said; }
u64 host_said_length(void) { return said_length; }
u64 host_peak(void) { return heap_peak(); }

#define IMPORT(n) __attribute__((import_module("host"), import_name(#n)))
IMPORT(exit) void host_exit(int status) __attribute__((noreturn));
static int status_of(int status) { return has_no_room ? STATUS_NO_MEMORY : status; }
void _exit(int status) { host_exit(status_of(status)); }

int main_of_program(void) __asm__("main");
/* Runs the program, and returns its status, or calls the import `exit` with it. */
int host_run(void) { return has_no_room ? STATUS_NO_MEMORY : status_of(main_of_program()); }

/* ---- The heap ---- */

struct tried { u64 ok; void *p; };
static u8 none[16];
static struct tried tried(void *p) { return (struct tried){ p != 0, p ? p : none }; }
struct tried rattle_alloc(u64 n, u64 a) { return tried(heap_take(n)); }
struct tried rattle_realloc(void *p, u64 kept, u64 n, u64 a) { return tried(heap_resize(p, kept, n)); }
void rattle_dealloc(void *p) { heap_free(p); }
void *malloc(u64 n) { return heap_take(n); }
void free(void *p) { heap_free(p); }

/* ---- Words and streams ---- */

static int errno_now;
int rattle_errno(void) { return errno_now; }
void rattle_set_errno(int e) { errno_now = e; }

i64 rattle_arg_count(void) { u64 n = 0; for (u64 i = 0; i < words.length; i++) n += !words.at[i]; return n; }
/* The length of word i, whose first bytes are written; -1 where there is none, -2 where it is longer than the room for it. */
i64 rattle_arg(u64 i, u8 *to, u64 room)
{
    u64 at = 0, n = 0;
    for (; i && at < words.length; i--) { while (at < words.length && words.at[at]) at++; at++; }
    if (at >= words.length) return -1;
    while (at + n < words.length && words.at[at + n]) n++;
    __builtin_memcpy(to, words.at + at, n < room ? n : room);
    return n <= room ? (i64)n : -2;
}
i64 rattle_env(const u8 *name, u8 *to, u64 room) { return -1; }
i64 rattle_env_at(u64 i, u8 *to, u64 room) { return -1; }
i64 lseek(int fd, i64 at, int how) { errno_now = ESPIPE_; return -1; }

i64 read(int fd, u8 *to, u64 n)
{
    u64 left = in.length - in_read;
    if (n > left) n = left;
    if (n) __builtin_memcpy(to, in.at + in_read, n);
    in_read += n;
    return n;
}
static i64 say(const u8 *from, u64 n)
{
    u64 room = sizeof said - said_length, kept = n < room ? n : room;
    __builtin_memcpy(said + said_length, from, kept);
    said_length += kept;
    return n;
}
static int has_out_room(u64 room)
{
    if (room <= out.room) return 1;
    u8 *to = out.at ? heap_resize(out.at, out.length, room) : heap_take(room);
    if (!to) return 0;
    out.at = to;
    out.room = room;
    return 1;
}
i64 write(int fd, const u8 *from, u64 n)
{
    if (fd == 2) return say(from, n);
    u64 needed = out.length + n;
    if (needed > out.room && !has_out_room(2 * needed) && !has_out_room(needed)) {
        has_no_room = 1;
        errno_now = ENOMEM_;
        return -1;
    }
    __builtin_memcpy(out.at + out.length, from, n);
    out.length += n;
    return n;
}

/* ---- The rest ---- */

void abort(void) { __builtin_trap(); }
int __xpg_strerror_r(int e, u8 *to, u64 room) { if (room) *to = 0; return 0; }
u64 __sysv_signal(int s, u64 handler) { return 0; }
int sched_yield(void) { return 0; }
u64 pthread_self(void) { return 1; }
int pthread_create(void *t, void *a, void *f, void *x) { return EAGAIN_; }
int pthread_attr_init(void *a) { return 0; }
int pthread_attr_setguardsize(void *a, u64 n) { return 0; }
int pthread_attr_setstacksize(void *a, u64 n) { return 0; }
int pthread_attr_destroy(void *a) { return 0; }
int pthread_detach(u64 t) { return 0; }
int pthread_join(u64 t, void *r) { __builtin_trap(); }
i64 syscall(i64 n, void *a, i64 b, i64 c, void *d, ...) { __builtin_trap(); }
