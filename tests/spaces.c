/* Stands before the C library's `read` in a process (LD_PRELOAD): standard input is a space at each read, for ever.
 *
 * The file that SPACES names has room for a number of 64 bits, how many reads there were, and is shared with who started the
 * process.
 *
 * No headers, so that any C compiler can make it: cc -shared -fPIC -nostdlib. */
typedef unsigned long size;

extern long __read(int, void *, size);
extern char *getenv(const char *);
extern int open(const char *, int, ...);
extern void *mmap(void *, size, int, int, int, long);

static unsigned long long none;
static unsigned long long *reads;

static void begin(void) {
    const char *name = getenv("SPACES");
    int file = name ? open(name, 2) : -1;
    void *shared = file < 0 ? (void *)-1 : mmap(0, 4096, 3, 1, file, 0);
    reads = shared == (void *)-1 ? &none : shared;
}

long read(int file, void *bytes, size most) {
    if (file || !most) return __read(file, bytes, most);
    if (!reads) begin();
    ++*reads;
    *(char *)bytes = ' ';
    return 1;
}
