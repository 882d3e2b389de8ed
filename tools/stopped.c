/* Linked to a program that is built unproved with its checks (tools/fast-try --checked). Where a check fails, this says
   in which functions, innermost first, and ends the program with status 3. The functions are found by their frames, and
   named by the program's own table of symbols. It includes nothing, since the toolchain has no headers. */

typedef unsigned char u8;
typedef unsigned short u16;
typedef unsigned int u32;
typedef unsigned long u64;

int open(const char *path, int flags, ...);
long lseek(int file, long at, int from);
void *mmap(void *at, u64 size, int protection, int flags, int file, long from);
long write(int file, const void *octets, u64 size);
void _exit(int status) __attribute__((noreturn));

enum { END = 2, READ = 1, PRIVATE = 2, SYMBOLS = 2, FRAMES = 12, STATUS = 3 };

/* ELF-64: a section's and a symbol's row. */
struct section { u32 name, type; u64 flags, address, from, size; u32 link, info; u64 align, row; };
struct symbol { u32 name; u8 info, other; u16 section; u64 value, size; };

static const u8 *file;
static const struct section *symbols;

static void say(const char *text, u64 size) {
    if (write(2, text, size) < 0) _exit(STATUS);
}

/* Finds the table of symbols of the program that runs. */
static void find_symbols(void) {
    int self = open("/proc/self/exe", 0);
    long size = self < 0 ? 0 : lseek(self, 0, END);
    if (size <= 0) return;
    file = mmap(0, size, READ, PRIVATE, self, 0);
    if (file == (void *)-1) return;
    const struct section *all = (const void *)(file + *(const u64 *)(file + 40));
    for (u16 at = 0; at < *(const u16 *)(file + 60); at++)
        if (all[at].type == SYMBOLS) symbols = &all[at];
}

/* The symbol whose code holds this address, which counts from where the program was loaded. */
static const struct symbol *symbol_at(u64 address) {
    const struct symbol *all = (const void *)(file + symbols->from);
    for (u64 at = 0; at < symbols->size / sizeof *all; at++)
        if (all[at].size && address >= all[at].value && address - all[at].value < all[at].size) return &all[at];
    return 0;
}

static const char *name_of(const struct symbol *symbol) {
    const struct section *all = (const void *)(file + *(const u64 *)(file + 40));
    return (const char *)(file + all[symbols->link].from + symbol->name);
}

static int is_here(const char *name) {
    const char *own = "stopped_by_check";
    while (*own && *own == *name) own++, name++;
    return *own == *name;
}

/* How far from its addresses the program was loaded: where this function is, against its symbol. */
static u64 find_load(u64 here) {
    const struct symbol *all = (const void *)(file + symbols->from);
    for (u64 at = 0; at < symbols->size / sizeof *all; at++)
        if (is_here(name_of(&all[at]))) return here - all[at].value;
    return 0;
}

/* A function's name without what it was made at: `core::mem::drop::<#2b8b>` is `core::mem::drop`. */
static u64 length_of(const char *name) {
    u64 size = 0;
    while (name[size] && !(name[size] == ':' && name[size + 2] == '<')) size++;
    while (size && name[size - 1] == ':') size--;
    return size;
}

__attribute__((noinline, noreturn, cold)) void stopped_by_check(void) {
    static const char begins[] = "mtpbank: unproved, and stopped by a check: ", then[] = " < ";
    u64 *frame = __builtin_frame_address(0);
    find_symbols();
    u64 load = symbols ? find_load((u64)&stopped_by_check) : 0;
    say(begins, sizeof begins - 1);
    for (int at = 0; symbols && at < FRAMES && frame[0] > (u64)frame; at++) {
        const struct symbol *symbol = symbol_at(frame[1] - 1 - load);
        if (!symbol) break;
        if (at) say(then, sizeof then - 1);
        say(name_of(symbol), length_of(name_of(symbol)));
        frame = (u64 *)frame[0];
    }
    say("\n", 1);
    _exit(STATUS);
}
