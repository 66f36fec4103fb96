/* Intercepts the C library's allocator in a process (LD_PRELOAD), counts its allocations, and refuses some of them.
 *
 * The file that REFUSING names has room for eight numbers of 64 bits and is shared with who started the process:
 *   0  which allocation is refused, counted from 1; 0 refuses none
 *   1  how many are refused from there on; 0 is all of them
 *   2  how many there were
 *   3  how many were refused
 *   4  the most bytes that one of them asked for, refused ones too
 *   5  the bytes that are held
 *   6  the most bytes that were held at once
 *   7  the bytes that all of them asked for together, refused ones too
 * A block that is to have another size is an allocation. Several threads are counted together: whose allocation is the n-th is then
 * theirs to say, and the most bytes held are about so many. ARM and ASK are for one thread.
 *
 * A process can also say itself which of its next allocations is refused: by asking for ARM bytes and that number, and for ASK
 * bytes whether it was; both are refused themselves, ASK only if an allocation was refused since. Neither is counted. If
 * this library is not loaded, as many bytes as ARM are refused by any C library, and ASK bytes are given.
 *
 * No headers, so that any C compiler can make it: cc -shared -fPIC -nostdlib. */
typedef unsigned long size;
typedef unsigned long long number;

extern void *__libc_malloc(size);
extern void *__libc_calloc(size, size);
extern void *__libc_realloc(void *, size);
extern void *__libc_memalign(size, size);
extern void __libc_free(void *);
extern size malloc_usable_size(void *);
extern char *getenv(const char *);
extern int open(const char *, int, ...);
extern int *__errno_location(void);
extern void *mmap(void *, size, int, int, int, long);

#define ARM 0x7ee0000000000000ul
#define MOST_ARMED 0xfffffffful
#define ASK 1234567ul
#define NO_MEMORY 12

static number none[8];
static number *numbers = none;
static int begun;
static number armed, since;

static void begin(void) {
    begun = 1;
    const char *name = getenv("REFUSING");
    if (!name) return;
    int file = open(name, 2);
    if (file < 0) return;
    void *shared = mmap(0, 4096, 3, 1, file, 0);
    if (shared != (void *)-1) numbers = shared;
}

/* Whether this allocation is refused. */
static int refused(size asked) {
    if (!begun) begin();
    number place = __atomic_add_fetch(&numbers[2], 1, __ATOMIC_SEQ_CST);
    if (asked > numbers[4]) numbers[4] = asked;
    __atomic_add_fetch(&numbers[7], asked, __ATOMIC_SEQ_CST);
    int now = numbers[0] && place >= numbers[0] && (!numbers[1] || place < numbers[0] + numbers[1]);
    if (armed && !--armed) {
        now = 1;
        since = 1;
    }
    if (now) {
        __atomic_add_fetch(&numbers[3], 1, __ATOMIC_SEQ_CST);
        *__errno_location() = NO_MEMORY;
    }
    return now;
}

static void *given(void *block) {
    if (block) {
        number held = __atomic_add_fetch(&numbers[5], malloc_usable_size(block), __ATOMIC_SEQ_CST);
        if (held > numbers[6]) numbers[6] = held;
    }
    return block;
}

static void taken(void *block) {
    if (block) __atomic_sub_fetch(&numbers[5], malloc_usable_size(block), __ATOMIC_SEQ_CST);
}

void *malloc(size asked) {
    if (asked >= ARM && asked <= ARM + MOST_ARMED) {
        armed = asked - ARM;
        since = 0;
        return 0;
    }
    if (asked == ASK) {
        armed = 0;
        return since ? 0 : given(__libc_malloc(asked));
    }
    return refused(asked) ? 0 : given(__libc_malloc(asked));
}

void *calloc(size count, size each) {
    return refused(count * each) ? 0 : given(__libc_calloc(count, each));
}

void *realloc(void *block, size asked) {
    if (refused(asked)) return 0;
    size before = block ? malloc_usable_size(block) : 0;
    void *found = __libc_realloc(block, asked);
    if (found) {
        __atomic_sub_fetch(&numbers[5], before, __ATOMIC_SEQ_CST);
        given(found);
    }
    return found;
}

void *memalign(size alignment, size asked) {
    return refused(asked) ? 0 : given(__libc_memalign(alignment, asked));
}

void *aligned_alloc(size alignment, size asked) {
    return memalign(alignment, asked);
}

int posix_memalign(void **block, size alignment, size asked) {
    void *found = memalign(alignment, asked);
    if (!found) return NO_MEMORY;
    *block = found;
    return 0;
}

void free(void *block) {
    taken(block);
    __libc_free(block);
}
