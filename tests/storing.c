/* Intercepts what a process does to its files (LD_PRELOAD): `write`, `pwrite`, `fdatasync`, `fsync`, `ftruncate` and `rename`.
 *
 * These calls are counted from 1, but for writes to the standard streams. If the environment has AT, the call of that number fails: with the
 * error ERROR; or if it has KILLS, the process is killed there, before the call or, if KILLS is 2, after it. If it has SHORT, a write that
 * would fail accepts half of its bytes first. From the call AT on, all of them fail, as on a full disk, or if it has MANY, so many. Each call is told
 * to the file TOLD, by a letter: w for both writes, s for both syncs, t, r, and o for a write to the standard output.
 *
 * No headers, so that any C compiler can make it: cc -shared -fPIC -nostdlib. */
typedef unsigned long size;

extern long __write(int, const void *, size);
extern char *getenv(const char *);
extern int *__errno_location(void);
extern long syscall(long, ...);
extern int open(const char *, int, ...);

enum { FSYNC = 74, FDATASYNC = 75, FTRUNCATE = 77, RENAME = 82, PWRITE = 18, GETPID = 39, KILL = 62, WRITE_ONLY = 1, CREATE = 64, APPEND = 1024 };

static size calls;
static int told = -1;

/* The number of the name in the environment, or 0. */
static size number(const char *name) {
    const char *digit = getenv(name);
    size value = 0;
    for (; digit && *digit; ++digit) value = value * 10 + (size)(*digit - '0');
    return value;
}

static long fault(void) {
    *__errno_location() = (int)number("ERROR");
    return -1;
}

static void tell(const char *letter) {
    const char *path = getenv("TOLD");
    if (!path) return;
    if (told < 0) told = open(path, WRITE_ONLY | CREATE | APPEND, 0666);
    __write(told, letter, 1);
}

static void die(void) { syscall(KILL, syscall(GETPID), 9); }

/* Whether the call that begins is to fail. The process is killed here if that is asked for. */
static int fails(const char *letter) {
    size at = number("AT");
    tell(letter);
    ++calls;
    if (calls == at && number("KILLS") == 1) die();
    return at && calls >= at && (!number("MANY") || calls < at + number("MANY")) && !number("KILLS");
}

/* What a call came to. The process is killed here if that is asked for. */
static long done(long came_to) {
    if (calls == number("AT") && number("KILLS") == 2) die();
    return came_to;
}

long write(int file, const void *bytes, size most) {
    if (file == 1) tell("o");
    if (file <= 2) return __write(file, bytes, most);
    if (!fails("w")) return done(__write(file, bytes, most));
    if (calls == number("AT") && number("SHORT") && most > 1) return __write(file, bytes, most / 2);
    return fault();
}

long pwrite(int file, const void *bytes, size most, long at) { return fails("w") ? fault() : done(syscall(PWRITE, file, bytes, most, at)); }

long pwrite64(int file, const void *bytes, size most, long at) { return pwrite(file, bytes, most, at); }

int fdatasync(int file) { return (int)(fails("s") ? fault() : done(syscall(FDATASYNC, file))); }

int fsync(int file) { return (int)(fails("s") ? fault() : done(syscall(FSYNC, file))); }

int ftruncate(int file, long length) { return (int)(fails("t") ? fault() : done(syscall(FTRUNCATE, file, length))); }

int ftruncate64(int file, long length) { return ftruncate(file, length); }

int rename(const char *from, const char *to) { return (int)(fails("r") ? fault() : done(syscall(RENAME, from, to))); }
