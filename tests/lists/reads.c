/* reads: stands in for the C library's read in a run of the lister (the loader's --preload). Every read gives at most
 * READS_PIECE bytes, and calls before it fail as they do in the field: READS_INTERRUPTED of them with EINTR, as one that
 * a signal interrupts, and READS_NOT_READY of them with EAGAIN, as one of a pipe that has nothing yet. With
 * READS_NONBLOCKING the input itself is set so that it does not wait. No header is included, so that the toolchain's own
 * compiler is enough. */

typedef __SIZE_TYPE__ size_t;
typedef __PTRDIFF_TYPE__ ssize_t;

extern char *getenv(const char *name);
extern long syscall(long number, ...);
extern int *__errno_location(void);

ssize_t read(int fd, void *bytes, size_t count);

enum { SYSTEM_READ = 0, SYSTEM_FCNTL = 72, SET_FLAGS = 4, NONBLOCKING = 2048, INTERRUPTED = 4, NOT_READY = 11 };

static unsigned long number(const char *name)
{
    const char *text = getenv(name);
    unsigned long n = 0;
    while (text && *text >= '0' && *text <= '9')
        n = n * 10 + (unsigned long)(*text++ - '0');
    return n;
}

static ssize_t failed(int error)
{
    *__errno_location() = error;
    return -1;
}

ssize_t read(int fd, void *bytes, size_t count)
{
    static unsigned long interrupted, not_ready;
    size_t piece = number("READS_PIECE");
    if (interrupted < number("READS_INTERRUPTED")) {
        interrupted++;
        return failed(INTERRUPTED);
    }
    if (not_ready < number("READS_NOT_READY")) {
        not_ready++;
        return failed(NOT_READY);
    }
    interrupted = 0;
    not_ready = 0;
    if (number("READS_NONBLOCKING"))
        syscall(SYSTEM_FCNTL, fd, SET_FLAGS, NONBLOCKING);
    return syscall(SYSTEM_READ, fd, bytes, piece && piece < count ? piece : count);
}
