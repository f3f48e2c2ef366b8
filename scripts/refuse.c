/* Wraps the allocator of a program (LD_PRELOAD), makes some of its allocations fail, and reports the size of each. By the environment:
 *
 * REFUSE_FIRST, REFUSE_LAST: the first and the last allocation that fails, counted from 1.
 * REFUSE_NOTE: a descriptor to which a byte is written where the first of them fails.
 * REFUSE_SIZES: a descriptor to which a line is written for each allocation, 'allocation BYTES beside HELD'. For a block that is
 * enlarged BYTES are the added bytes. HELD are the bytes of all blocks before it, as the C library gives them: a block may have some
 * more than were asked for. Where it is that of standard output, the lines are between those of the program, in order.
 *
 * It is compiled by the toolchain's own clang, without headers (scripts/allocations.py).
 */
typedef unsigned long size;

extern char *getenv(const char *name);
extern long write(int fd, const void *bytes, size count);
extern int *__errno_location(void);
extern size malloc_usable_size(void *block);
extern void *__libc_malloc(size bytes);
extern void *__libc_calloc(size count, size bytes);
extern void *__libc_realloc(void *old, size bytes);
extern void *__libc_memalign(size alignment, size bytes);
extern void __libc_free(void *block);

static const int NO_MEMORY = 12; /* ENOMEM */

static size first, last, allocations, held;
static int note = -1, sizes = -1;

static size number(const char *name) {
    const char *text = getenv(name);
    size value = 0;
    while (text && '0' <= *text && *text <= '9')
        value = 10 * value + (size)(*text++ - '0');
    return value;
}

/* What comes before this, comes of the loader. */
__attribute__((constructor)) static void begin(void) {
    if (getenv("REFUSE_NOTE"))
        note = (int)number("REFUSE_NOTE");
    if (getenv("REFUSE_SIZES"))
        sizes = (int)number("REFUSE_SIZES");
    last = number("REFUSE_LAST");
    first = number("REFUSE_FIRST");
}

/* Writes the digits of a number before this place. */
static void put_digits(char *end, size value) {
    for (; value; value /= 10)
        *--end = (char)('0' + value % 10);
}

/* Writes the line of an allocation. */
static void note_size(size bytes) {
    char line[] = "allocation 00000000000000000000 beside 00000000000000000000\n";
    if (sizes < 0)
        return;
    put_digits(line + sizeof "allocation 00000000000000000000" - 1, bytes);
    put_digits(line + sizeof line - 2, __atomic_load_n(&held, __ATOMIC_SEQ_CST));
    if (write(sizes, line, sizeof line - 1) != sizeof line - 1)
        sizes = -1;
}

/* Whether the next allocation is refused, with its reason where the C library looks for it. Threads may ask at the same time. */
static int is_refused(size bytes) {
    note_size(bytes);
    if (first == 0)
        return 0;
    size place = __atomic_add_fetch(&allocations, 1, __ATOMIC_SEQ_CST);
    if (place < first || last < place)
        return 0;
    if (place == first && note >= 0 && write(note, "r", 1) != 1)
        note = -1;
    *__errno_location() = NO_MEMORY;
    return 1;
}

/* The size of a block, 0 of none. */
static size size_of(void *block) {
    return block ? malloc_usable_size(block) : 0;
}

/* How many bytes are added to a block. */
static size added(void *old, size bytes) {
    size own = size_of(old);
    return own < bytes ? bytes - own : 0;
}

/* A block that was made, of which this many bytes were held before. */
static void *hold(void *block, size before) {
    __atomic_add_fetch(&held, size_of(block) - before, __ATOMIC_SEQ_CST);
    return block;
}

void *malloc(size bytes) {
    return is_refused(bytes) ? 0 : hold(__libc_malloc(bytes), 0);
}

void *calloc(size count, size bytes) {
    return is_refused(count * bytes) ? 0 : hold(__libc_calloc(count, bytes), 0);
}

void *realloc(void *old, size bytes) {
    size before = size_of(old);
    if (is_refused(added(old, bytes)))
        return 0;
    void *made = __libc_realloc(old, bytes);
    return made || !bytes ? hold(made, before) : 0;
}

void free(void *block) {
    __atomic_sub_fetch(&held, size_of(block), __ATOMIC_SEQ_CST);
    __libc_free(block);
}

void *memalign(size alignment, size bytes) {
    return is_refused(bytes) ? 0 : hold(__libc_memalign(alignment, bytes), 0);
}

void *aligned_alloc(size alignment, size bytes) {
    return memalign(alignment, bytes);
}

int posix_memalign(void **place, size alignment, size bytes) {
    void *made = memalign(alignment, bytes);
    if (!made)
        return NO_MEMORY;
    *place = made;
    return 0;
}
