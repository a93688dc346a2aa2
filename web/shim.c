// What the program asks of the C library and of Linux, for a browser: memory, the words of the command line, and files by four functions of
// the host (host.js). No proof covers this file. It stands where the C library and the kernel stand on Linux.
//
// The program has pointers of 64 bits, and runs in a memory whose addresses have 32: binaryen cuts each one as it is used. So nothing here
// may hand out an address of 2^32 or more.
#include "heap.c"

#define HOST(name) __attribute__((import_module("host"), import_name(name)))
// Opens the file of this name to read it, or makes it where `makes` is 1: its descriptor, or -errno.
HOST("open") i32 host_open(const byte *name, u64 size, i32 makes);
// Reads at most so many bytes of the file, and writes so many: how many it were, or -errno.
HOST("read") i64 host_read(i32 descriptor, byte *to, u64 most);
HOST("write") i64 host_write(i32 descriptor, const byte *from, u64 size);
HOST("close") void host_close(i32 descriptor);

// What Linux says on x86-64, by which the program was compiled.
#define EINVAL 22
#define ESPIPE 29
#define O_RDONLY 00
#define O_WRONLY 01
#define O_RDWR 02
#define O_CREAT 0100
#define O_EXCL 0200
#define O_NOCTTY 0400
#define O_CLOEXEC 02000000
#define S_IFREG 0100000
#define STATX_TYPE 1

// The struct that the program takes has a bool and a pointer. The module asks for it as two integers of 64 bits, so all of the first is set.
struct tried {
    u64 ok;
    byte *block;
};
static byte nothing;
static struct tried tried(byte *block) { return (struct tried){block != 0, block ? block : &nothing}; }

// Memory of no size has an address of its own, as the kit's own code has it: it asks for the alignment then.
struct tried rattle_alloc(u64 size, u64 alignment) { return tried(take(size ? size : alignment)); }
struct tried rattle_realloc(byte *block, u64 kept, u64 size, u64 alignment) {
    (void)kept;
    return tried(resize(block, size ? size : alignment));
}
void rattle_dealloc(byte *block) { give_back(block); }

// ---- The words of the command line, one behind the other, each ended by a 0.
static const byte *words;
static u64 word_count;

static u64 length_of(const byte *text) {
    u64 length = 0;
    while (text[length]) length++;
    return length;
}

u64 rattle_arg_count(void) { return word_count; }

// Puts a word at `to`: its length; -1 where there is none, and -2 where it doesn't fit.
i64 rattle_arg(u64 number, byte *to, u64 most) {
    if (number >= word_count) return -1;
    const byte *word = words;
    while (number--) word += length_of(word) + 1;
    u64 length = length_of(word), fits = length < most ? length : most;
    __builtin_memcpy(to, word, fits);
    return length <= most ? (i64)length : -2;
}

// There is no environment.
i64 rattle_env(const byte *name, byte *to, u64 most) {
    (void)name, (void)to, (void)most;
    return -1;
}
i64 rattle_env_at(u64 number, byte *to, u64 most) {
    (void)number, (void)to, (void)most;
    return -1;
}

// ---- Files.
static i32 error;
i32 rattle_errno(void) { return error; }
void rattle_set_errno(i32 number) { error = number; }

// An answer of the host, as the C library gives it.
static i64 answered(i64 answer) {
    if (answer >= 0) return answer;
    error = (i32)-answer;
    return -1;
}

i64 read(i32 descriptor, byte *to, u64 most) { return answered(host_read(descriptor, to, most)); }
i64 write(i32 descriptor, const byte *from, u64 size) { return answered(host_write(descriptor, from, size)); }

// A file is opened to be read, or is made where none of that name is: Rust's create_new, which asks to read it too, but the program only
// writes it. Other ways to open one, of which the program asks for none, are refused, so that none is taken for another.
i32 open(const byte *name, i32 flags, ...) {
    i32 way = flags & ~(O_NOCTTY | O_CLOEXEC), makes = way == (O_RDWR | O_CREAT | O_EXCL) || way == (O_WRONLY | O_CREAT | O_EXCL);
    if (way != O_RDONLY && !makes) return (i32)answered(-EINVAL);
    return (i32)answered(host_open(name, length_of(name), makes));
}

i32 close(i32 descriptor) {
    host_close(descriptor);
    return 0;
}

// No file has a place to go to: the standard input is as a pipe is.
i64 lseek(i32 descriptor, i64 to, i32 whence) {
    (void)descriptor, (void)to, (void)whence;
    return answered(-ESPIPE);
}

// Of each open file it is said that it is a regular one, and no more. The host opens no folder.
struct statx {
    u32 mask, block_size;
    u64 attributes;
    u32 links, user, group;
    u16 mode, spare;
    u64 rest[28];
};
_Static_assert(sizeof(struct statx) == 256, "as Linux has it");
i32 statx(i32 descriptor, const byte *path, i32 flags, u32 mask, struct statx *told) {
    (void)descriptor, (void)path, (void)flags, (void)mask;
    __builtin_memset(told, 0, sizeof *told);
    told->mask = STATX_TYPE;
    told->mode = S_IFREG | 0644;
    return 0;
}

// No signal comes, so none has to be ignored.
u64 __sysv_signal(i32 signal, u64 handler) {
    (void)signal, (void)handler;
    return 0;
}

// ---- Before `main` the program asks whether the processor has what it was compiled for, and says where it has not. It was compiled for
// WebAssembly in the end, so it is told that it has everything.
static const u32 every_feature[16] = {~0u, ~0u, ~0u, ~0u, ~0u, ~0u, ~0u, ~0u, ~0u, ~0u, ~0u, ~0u, ~0u, ~0u, ~0u, ~0u};
const void *__x86_get_cpuid_feature_leaf(u32 leaf) {
    (void)leaf;
    return every_feature;
}
i64 __write(i32 descriptor, const byte *from, u64 size) { return write(descriptor, from, size); }

// ---- What the host calls: `room` for the words, and then `run`, once. Memory is as at the start only in a new instance.
__attribute__((export_name("room"))) byte *room(u64 size) { return take(size); }

// The program's `main`. The compiler would give C's own main another name, so this one is named to the linker.
i32 program(void) __asm__("main");
__attribute__((export_name("run"))) i32 run(const byte *all, u64 count) {
    words = all;
    word_count = count;
    return program();
}
