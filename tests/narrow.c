/* Intercepts the C library's `read` and `write` in a process (LD_PRELOAD), so that it reads and writes a few bytes at a time.
 *
 * If the environment has READS, a read gives at most as many bytes, and if it has FAILS, not 0, reading fails at the end of the input.
 * If it has WRITES, a write accepts at most as many bytes, and if it has ROOM, writing fails after as many bytes were accepted.
 * If it has READ_INTERRUPTS or WRITE_INTERRUPTS, so many reads of the input, or writes to the output, come to nothing first, as if by a signal.
 * If it has SIGNAL, that signal is caught, and a read or a write that waits is interrupted by it; each such one writes a byte to the file
 * whose number is TELLS: r or w.
 *
 * No headers, so that any C compiler can make it: cc -shared -fPIC -nostdlib. */
typedef unsigned long size;

extern long __read(int, void *, size);
extern long __write(int, const void *, size);
extern char *getenv(const char *);
extern void (*signal(int, void (*)(int)))(int);
extern int siginterrupt(int, int);
extern int *__errno_location(void);

static size taken, read_interrupts, write_interrupts;

/* The number of the name in the environment, or the other one. */
static size number(const char *name, size other) {
    const char *digit = getenv(name);
    size value = 0;
    if (!digit) return other;
    for (; *digit; ++digit) value = value * 10 + (size)(*digit - '0');
    return value;
}

static size least(size one, size other) { return one < other ? one : other; }

static long fault(int error) {
    *__errno_location() = error;
    return -1;
}

static void caught(int number) { (void)number; }

__attribute__((constructor)) static void begins(void) {
    int caught_one = (int)number("SIGNAL", 0);
    read_interrupts = number("READ_INTERRUPTS", 0);
    write_interrupts = number("WRITE_INTERRUPTS", 0);
    if (!caught_one) return;
    signal(caught_one, caught);
    siginterrupt(caught_one, 1);
}

/* What a read or a write came to, which is told if a signal interrupted it. */
static long told(const char *what, long done) {
    if (done < 0 && *__errno_location() == 4) {
        __write((int)number("TELLS", 2), what, 1);
        *__errno_location() = 4;
    }
    return done;
}

long read(int file, void *bytes, size most) {
    long given;
    if (file) return __read(file, bytes, most);
    if (read_interrupts) return --read_interrupts, fault(4);
    given = told("r", __read(file, bytes, least(most, number("READS", most))));
    return given || !most || !number("FAILS", 0) ? given : fault(5);
}

long write(int file, const void *bytes, size most) {
    size room;
    long took;
    if (file != 1) return __write(file, bytes, most);
    if (write_interrupts) return --write_interrupts, fault(4);
    room = number("ROOM", ~(size)0);
    if (taken >= room) return fault(28);
    most = least(least(most, number("WRITES", most)), room - taken);
    took = most ? told("w", __write(file, bytes, most)) : 0;
    if (took > 0) taken += (size)took;
    return took;
}
