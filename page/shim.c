// What the program asks of Linux, for a WebAssembly module that asks nothing of its host: words and files out of memory,
// standard output into memory, and one thread.

typedef unsigned char byte;
typedef unsigned long size;
typedef unsigned __int128 wide;

#define EXPORT(name) __attribute__((export_name(#name)))

enum { NO_ENTRY = 2, BAD_FILE = 9, TRY_AGAIN = 11, NO_SPACE = 28, READ_ONLY = 30, NO_SUCH_THREAD = 3 };
enum { PAGE = 65536, PAGES_AT_ONCE = 64, WORDS = 256, FILES = 256, OUTPUT = 1, FIRST_OPEN = 3, ABORTED = 134 };

static int errno_now;

static long fail(int why) {
    errno_now = why;
    return -1;
}

int rattle_errno(void) { return errno_now; }
void rattle_set_errno(int why) { errno_now = why; }

// The heap. A block has one of 8 sizes to each doubling, and 16 bytes before it that keep which one; what is given back
// waits in a list for the next block of that size. The module's memory only grows, up to a limit that the host may set.

extern byte __heap_base;
static size heap_at, heap_end, heap_limit = 1ul << 36;
static void *given_back[512];

EXPORT(set_limit) void set_limit(size bytes) { heap_limit = bytes; }

static int class_of(size bytes) {
    if (bytes <= 128) return (int)((bytes + 15) / 16);
    int top = 63 - __builtin_clzl(bytes - 1);
    size step = 1ul << (top - 3);
    return 8 * (top - 6) + (int)((bytes - 1 - (1ul << top)) / step) + 1;
}

static size size_of(int class) {
    if (class <= 8) return class == 0 ? 16 : (size)class * 16;
    int top = (class - 1) / 8 + 6;
    size eighths = (size)((class - 1) % 8) + 1;
    return ((1ul << top) + eighths * (1ul << (top - 3)) + 15) & ~15ul;
}

static int has_grown(size bytes) {
    if (heap_at == 0) {
        heap_at = ((size)&__heap_base + 15) & ~15ul;
        heap_end = __builtin_wasm_memory_size(0) * PAGE;
    }
    if (heap_at + bytes > heap_limit) return 0;
    if (heap_end - heap_at >= bytes) return 1;
    size pages = (bytes - (heap_end - heap_at) + PAGE - 1) / PAGE;
    if (pages < PAGES_AT_ONCE) pages = PAGES_AT_ONCE;
    if (__builtin_wasm_memory_grow(0, pages) == (size)-1) return 0;
    heap_end = __builtin_wasm_memory_size(0) * PAGE;
    return 1;
}

EXPORT(take) void *malloc(size bytes) {
    if (bytes > heap_limit) return 0;
    int class = class_of(bytes);
    if (given_back[class]) {
        void *block = given_back[class];
        given_back[class] = *(void **)block;
        return block;
    }
    size whole = size_of(class) + 16;
    if (!has_grown(whole)) return 0;
    size *head = (size *)heap_at;
    heap_at += whole;
    head[0] = (size)class;
    return head + 2;
}

static int class_at(void *block) { return (int)((size *)block)[-2]; }

void free(void *block) {
    if (!block) return;
    int class = class_at(block);
    *(void **)block = given_back[class];
    given_back[class] = block;
}

struct taken {
    size is_there;
    void *block;
};

// (every block lies at a multiple of 16, the greatest that the program asks for)
struct taken rattle_alloc(size bytes, size align) {
    void *block = align > 16 ? 0 : malloc(bytes);
    return (struct taken){block != 0, block};
}

void rattle_dealloc(void *block) { free(block); }

// The last block of the heap grows where it lies, so that a list which grows leaves no holes behind it.
static int has_grown_in_place(void *block, size had, size bytes) {
    if ((size)block + had != heap_at || bytes > heap_limit) return 0;
    int class = class_of(bytes);
    size more = size_of(class) - had;
    if (!has_grown(more)) return 0;
    heap_at += more;
    ((size *)block)[-2] = (size)class;
    return 1;
}

struct taken rattle_realloc(void *block, size kept, size bytes, size align) {
    size had = size_of(class_at(block));
    if (bytes <= had || has_grown_in_place(block, had, bytes)) return (struct taken){1, block};
    struct taken more = rattle_alloc(bytes, align);
    if (!more.is_there) return more;
    __builtin_memcpy(more.block, block, had);
    free(block);
    return more;
}

// The words and the files, which the host puts in before the run; a zero ends each name.

static struct { const byte *name, *data; size length; } files[FILES];
static struct { int is_used, file; size at; } open_files[FILES];
static const byte *words[WORDS];
static size file_count, word_count;

EXPORT(add_word) int add_word(const byte *word) {
    if (word_count == WORDS) return 0;
    words[word_count++] = word;
    return 1;
}

EXPORT(add_file) int add_file(const byte *name, const byte *data, size length) {
    if (file_count == FILES) return 0;
    files[file_count].name = name;
    files[file_count].data = data;
    files[file_count++].length = length;
    return 1;
}

// Answers the length of the word, -1 where there is none, -2 where it has no room.
long rattle_arg(size number, byte *to, size room) {
    if (number >= word_count) return -1;
    size at = 0;
    for (; words[number][at]; at++) {
        if (at == room) return -2;
        to[at] = words[number][at];
    }
    return (long)at;
}

long rattle_env(const byte *name, byte *to, size room) { return -1; }
long rattle_env_at(size number, byte *to, size room) { return -1; }

static int is_same(const byte *one, const byte *other) {
    while (*one && *one == *other) one++, other++;
    return *one == *other;
}

static int first_unused(void) {
    for (int handle = FIRST_OPEN; handle < FILES; handle++)
        if (!open_files[handle].is_used) return handle;
    return -1;
}

int open(const byte *name, int flags, ...) {
    if (flags & 3) return (int)fail(READ_ONLY);
    int handle = first_unused();
    for (size file = 0; handle >= 0 && file < file_count; file++) {
        if (!is_same(files[file].name, name)) continue;
        open_files[handle].is_used = 1;
        open_files[handle].file = (int)file;
        open_files[handle].at = 0;
        return handle;
    }
    return (int)fail(NO_ENTRY);
}

static int is_open(int handle) { return handle >= FIRST_OPEN && handle < FILES && open_files[handle].is_used; }

long read(int handle, byte *to, size room) {
    if (!is_open(handle)) return fail(BAD_FILE);
    size at = open_files[handle].at;
    int file = open_files[handle].file;
    size length = files[file].length - at;
    if (length > room) length = room;
    __builtin_memcpy(to, files[file].data + at, length);
    open_files[handle].at = at + length;
    return (long)length;
}

int close(int handle) {
    if (!is_open(handle)) return (int)fail(BAD_FILE);
    open_files[handle].is_used = 0;
    return 0;
}

// Standard output, which the host reads when the run is over. It begins with room of its own, so that a line that tells
// of want of memory needs none.

static byte first_room[PAGE];
static byte *output = first_room;
static size output_length, output_room = PAGE;

EXPORT(output_at) byte *output_at(void) { return output; }
EXPORT(output_size) size output_size(void) { return output_length; }

long write(int handle, const byte *from, size length) {
    if (handle != OUTPUT) return fail(BAD_FILE);
    if (output_room - output_length < length) {
        size room = 2 * (output_length + length) + PAGE;
        byte *more = malloc(room);
        if (!more) return fail(NO_SPACE);
        __builtin_memcpy(more, output, output_length);
        if (output != first_room) free(output);
        output = more;
        output_room = room;
    }
    __builtin_memcpy(output + output_length, from, length);
    output_length += length;
    return (long)length;
}

// One thread: none other is started, so whoever asked for one does the work itself, and nobody is there to wait for.

int pthread_create(void *thread, void *with, void *work, void *value) { return TRY_AGAIN; }
int pthread_attr_init(void *with) { return 0; }
int pthread_attr_setguardsize(void *with, size bytes) { return 0; }
int pthread_attr_setstacksize(void *with, size bytes) { return 0; }
int pthread_attr_destroy(void *with) { return 0; }
size pthread_self(void) { return 1; }
int pthread_detach(size thread) { return NO_SUCH_THREAD; }
int pthread_join(size thread, void *value) { return NO_SUCH_THREAD; }
int sched_yield(void) { return 0; }

// (the one call that is made is the futex: who waits is woken at once, and nobody is there to be woken)
long syscall(long number, void *word, long what, long value, void *time, ...) { return 0; }
size __sysv_signal(int number, size handler) { return 0; }

// What the compiler asks for where it multiplies or shifts 128 bits.

static wide product(size one, size other) {
    size one_low = (unsigned)one, one_high = one >> 32, low = (unsigned)other, high = other >> 32;
    size lows = one_low * low;
    size middle = one_high * low + (lows >> 32);
    size cross = one_low * high + (unsigned)middle;
    size top = one_high * high + (middle >> 32) + (cross >> 32);
    return (wide)top << 64 | (cross << 32 | (unsigned)lows);
}

wide __multi3(wide one, wide other) {
    size low = (size)one, other_low = (size)other;
    size crossed = (size)(one >> 64) * other_low + low * (size)(other >> 64);
    return product(low, other_low) + ((wide)crossed << 64);
}

wide __ashlti3(wide value, int by) {
    size low = (size)value, high = (size)(value >> 64);
    if (by >= 64) return (wide)(low << (by - 64)) << 64;
    return by ? (wide)(high << by | low >> (64 - by)) << 64 | low << by : value;
}

wide __lshrti3(wide value, int by) {
    size low = (size)value, high = (size)(value >> 64);
    if (by >= 64) return high >> (by - 64);
    return by ? (wide)(high >> by) << 64 | (high << (64 - by) | low >> by) : value;
}

// The run. Whoever ends the process before the end of `main` ends the run by a trap, and the status is kept.

static int status = -1;
extern int program_main(void);

EXPORT(status_now) int status_now(void) { return status; }

void _exit(int with) {
    status = with;
    __builtin_trap();
}

void abort(void) {
    status = ABORTED;
    __builtin_trap();
}

EXPORT(run) int run(void) { return status = program_main(); }

// The program for x86-64 asks first whether the processor has what it was compiled for; a WebAssembly module has no such
// question, and is told that all is there. (What it would write if something lacked is never written.)
static const unsigned all_features[16] = {~0u, ~0u, ~0u, ~0u, ~0u, ~0u, ~0u, ~0u, ~0u, ~0u, ~0u, ~0u, ~0u, ~0u, ~0u, ~0u};

const void *processor_features(unsigned leaf) { return all_features; }
long __write(int handle, const byte *from, size length) { return write(handle, from, length); }
