/* What the program asks of a C library, for a page and for node: memory, words, files in memory, what is typed, and what is said. The loader puts
   words and files into memory that `room` gives and calls `run`. What is written is gathered, and handed to `said` before something is typed, when there
   is much of it, and at the end. `asked` puts what is typed where it says, and answers how many bytes, 0 at the end. */
#include "heap.c"

typedef long long i64;
typedef unsigned __int128 u128;
#define EXPORT(NAME) __attribute__((export_name(#NAME))) NAME
#define IMPORT(NAME) __attribute__((import_module("page"), import_name(#NAME))) NAME
extern int IMPORT(said)(int stream, const u8 *from, u32 length); /* 0, or the number of an error */
extern u32 IMPORT(asked)(u8 *to, u32 most);
extern u8 __heap_base;
int main(void);

/* Memory. Nothing in the program needs more than 8 bytes of alignment; what would is refused. */
struct answer { u64 ok, address; };
static struct answer answer(u32 address) { return (struct answer){address != 0, address}; }
static u32 take(u64 bytes) {
    if (!heap_end) heap_begin(((u32)&__heap_base + 7) & ~7u, (u32)__builtin_wasm_memory_size(0) << 16);
    return heap_take(bytes);
}
struct answer rattle_alloc(u64 bytes, u64 align) { return answer(align > 8 ? 0 : take(bytes)); }
struct answer rattle_realloc(void *it, u64 old, u64 bytes, u64 align) { return answer(align > 8 ? 0 : heap_resize((u32)it, bytes)); }
void rattle_dealloc(void *it) { if (it) heap_give((u32)it); }

/* Words and files, in the order in which they came. */
struct text { const u8 *from; u32 length; };
struct file { struct text name, content; struct file *next; };
static struct file *files, *words;
u8 *EXPORT(room)(u32 bytes) { return AT(take(bytes)); }
static int add(struct file **list, struct file it) {
    struct file *made = (struct file *)AT(take(sizeof it));
    while (*list) list = &(*list)->next;
    if (made) *made = it, *list = made;
    return made != 0;
}
int EXPORT(word)(const u8 *from, u32 length) { return add(&words, (struct file){{from, length}, {0, 0}, 0}); }
int EXPORT(file)(const u8 *name, u32 size, const u8 *from, u32 length) { return add(&files, (struct file){{name, size}, {from, length}, 0}); }

i64 rattle_arg(u64 n, u8 *to, u64 most) {
    struct file *it = words;
    while (it && n--) it = it->next;
    if (!it) return -1;
    if (it->name.length > most) return -2;
    __builtin_memcpy(to, it->name.from, it->name.length);
    return it->name.length;
}
i64 rattle_env(const u8 *name, u8 *to, u64 most) { return -1; }
i64 rattle_env_at(u64 n, u8 *to, u64 most) { return -1; }

static int error, broken; /* broken is the error of the first write that was not taken */
int rattle_errno(void) { return error; }
void rattle_set_errno(int number) { error = number; }
i64 __sysv_signal(int number, i64 what) { return 0; }

/* Streams: 0 is what is typed, 1 and 2 are what is said, from 3 on files are open. */
enum { ENOENT = 2, EBADF = 9, EACCES = 13, EINVAL = 22, EMFILE = 24, ESPIPE = 29, STREAMS = 16, GATHERED = 65536 };
static struct { struct file *file; u32 at; } streams[STREAMS];
static u8 gathered[3][GATHERED];
static u32 waiting[3];
static int fails(int number) { return error = number, -1; }
static struct file *file_of(int stream) { return stream > 2 && stream < STREAMS ? streams[stream].file : 0; }

static void hand_on(int stream) {
    if (waiting[stream] && !broken) broken = said(stream, gathered[stream], waiting[stream]);
    waiting[stream] = 0;
}
static int is(const u8 *path, struct text name) {
    u32 i = 0;
    while (i < name.length && path[i] && path[i] == name.from[i]) i++;
    return i == name.length && !path[i];
}
int open(const u8 *path, int flags, ...) {
    struct file *it = files;
    int stream = 3;
    if (flags & 3) return fails(EACCES);
    while (it && !is(path, it->name)) it = it->next;
    if (!it) return fails(ENOENT);
    while (stream < STREAMS && streams[stream].file) stream++;
    if (stream == STREAMS) return fails(EMFILE);
    streams[stream].file = it, streams[stream].at = 0;
    return stream;
}
int close(int stream) {
    if (!file_of(stream)) return stream >= 0 && stream < 3 ? 0 : fails(EBADF);
    streams[stream].file = 0;
    return 0;
}
i64 lseek(int stream, i64 by, int whence) {
    struct file *it = file_of(stream);
    if (!it) return fails(stream >= 0 && stream < 3 ? ESPIPE : EBADF);
    i64 from = whence == 1 ? streams[stream].at : whence == 2 ? it->content.length : 0;
    if (whence < 0 || whence > 2 || by > 0x7fffffff || by < -0x7fffffffll || from + by < 0 || from + by > 0x7fffffff) return fails(EINVAL);
    return streams[stream].at = (u32)(from + by);
}
i64 read(int stream, u8 *to, u64 most) {
    struct file *it = file_of(stream);
    if (most > 0x7fffffff) most = 0x7fffffff;
    if (stream == 0) return hand_on(1), hand_on(2), asked(to, (u32)most);
    if (!it) return fails(EBADF);
    u32 at = streams[stream].at, left = at < it->content.length ? it->content.length - at : 0;
    if (left > most) left = (u32)most;
    __builtin_memcpy(to, it->content.from + at, left);
    streams[stream].at = at + left;
    return left;
}
i64 write(int stream, const u8 *from, u64 length) {
    if (stream != 1 && stream != 2) return fails(EBADF);
    if (waiting[stream] == GATHERED) hand_on(stream);
    if (broken) return fails(broken);
    u32 part = GATHERED - waiting[stream];
    if (part > length) part = (u32)length;
    __builtin_memcpy(gathered[stream] + waiting[stream], from, part);
    waiting[stream] += part;
    return part;
}

/* The program's status; 6, as where a console fails, if what it wrote last is not taken. */
int EXPORT(run)(void) {
    int status = main();
    hand_on(1);
    hand_on(2);
    return broken ? 6 : status;
}

/* A product of 128 bits, which the back end calls. */
u128 __multi3(u128 a, u128 b) {
    u64 x = (u64)a, y = (u64)b, x0 = (u32)x, x1 = x >> 32, y0 = (u32)y, y1 = y >> 32;
    u64 low = x0 * y0, one = x0 * y1, other = x1 * y0;
    u64 middle = (low >> 32) + (u32)one + (u32)other;
    u64 high = x1 * y1 + (one >> 32) + (other >> 32) + (middle >> 32) + x * (u64)(b >> 64) + (u64)(a >> 64) * y;
    return (u128)high << 64 | (middle << 32 | (u32)low);
}
