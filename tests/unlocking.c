/* A file system without locks, or without modes (LD_PRELOAD): if the environment has LOCKS, `flock` fails; if it has MODES, what is opened may be
 * read by all, and `fchmod` fails.
 *
 * No headers, so that any C compiler can make it: cc -shared -fPIC -nostdlib. */
extern char *getenv(const char *);
extern int *__errno_location(void);
extern long syscall(long, ...);

enum { FLOCK = 73, FCHMOD = 91, STATX = 332, NO_LOCKS = 37, NOT_PERMITTED = 1, MODE_AT = 28 };

static int fault(int number) {
    *__errno_location() = number;
    return -1;
}

int flock(int file, int how) { return getenv("LOCKS") ? fault(NO_LOCKS) : (int)syscall(FLOCK, file, how); }

int fchmod(int file, unsigned mode) { return getenv("MODES") ? fault(NOT_PERMITTED) : (int)syscall(FCHMOD, file, mode); }

int statx(int folder, const char *path, int flags, unsigned mask, unsigned char *found) {
    int answer = (int)syscall(STATX, folder, path, flags, mask, found);
    if (answer == 0 && getenv("MODES")) found[MODE_AT] |= 044;
    return answer;
}
