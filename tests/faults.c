/* Loaded in front of the C library by tests/faults: makes one call of the program fail, which calls
   are counted from the beginning of main on. The environment says which, and where the counts go.

   FAULTS_KIND   0 a growth of memory, 1 a read of standard input, 2 a write to standard output,
                 3 a write to standard error
   FAULTS_AT     the number of the call that fails, from 1 on; 0 for none
   FAULTS_PIECE  how many bytes a read or a write moves at most; 0 for any
   FAULTS_SEEN   a file of five numbers of 64 bits: the calls of each kind, and how many failed */
#define _GNU_SOURCE
#include <dlfcn.h>
#include <errno.h>
#include <fcntl.h>
#include <stddef.h>
#include <stdint.h>
#include <stdlib.h>
#include <string.h>
#include <sys/mman.h>
#include <sys/syscall.h>
#include <sys/uio.h>
#include <unistd.h>

enum kind { GROWTH, READ, WRITE, TOLD, KINDS };

static struct seen {
    uint64_t calls[KINDS];
    uint64_t failed;
} *seen; /* none before main */
static unsigned long failing, at, piece;

/* Counts a call, and says whether it is the one that fails. */
static int fails(enum kind kind)
{
    if (!seen || ++seen->calls[kind] != at || kind != failing)
        return 0;
    seen->failed++;
    return 1;
}

static size_t cut(size_t len)
{
    return seen && piece && piece < len ? piece : len;
}

void *__libc_malloc(size_t);
void *__libc_calloc(size_t, size_t);
void *__libc_realloc(void *, size_t);
void *__libc_memalign(size_t, size_t);

static void *none(void)
{
    errno = ENOMEM;
    return NULL;
}

void *malloc(size_t size)
{
    return fails(GROWTH) ? none() : __libc_malloc(size);
}

void *calloc(size_t count, size_t size)
{
    return fails(GROWTH) ? none() : __libc_calloc(count, size);
}

void *realloc(void *old, size_t size)
{
    return fails(GROWTH) ? none() : __libc_realloc(old, size);
}

void *memalign(size_t align, size_t size)
{
    return fails(GROWTH) ? none() : __libc_memalign(align, size);
}

void *aligned_alloc(size_t align, size_t size)
{
    return memalign(align, size);
}

int posix_memalign(void **place, size_t align, size_t size)
{
    void *made = memalign(align, size);
    if (!made)
        return ENOMEM;
    *place = made;
    return 0;
}

void *mmap(void *place, size_t len, int prot, int flags, int fd, off_t offset)
{
    if (fails(GROWTH))
        return none(), MAP_FAILED;
    return (void *)syscall(SYS_mmap, place, len, prot, flags, fd, offset);
}

void *mmap64(void *, size_t, int, int, int, off_t) __attribute__((alias("mmap")));

static int breaks(enum kind kind)
{
    if (!fails(kind))
        return 0;
    errno = EIO;
    return 1;
}

ssize_t read(int fd, void *place, size_t len)
{
    if (fd != STDIN_FILENO)
        return syscall(SYS_read, fd, place, len);
    return breaks(READ) ? -1 : syscall(SYS_read, fd, place, cut(len));
}

ssize_t write(int fd, const void *place, size_t len)
{
    if (fd == STDOUT_FILENO)
        return breaks(WRITE) ? -1 : syscall(SYS_write, fd, place, cut(len));
    return fd == STDERR_FILENO && breaks(TOLD) ? -1 : syscall(SYS_write, fd, place, len);
}

ssize_t __read(int, void *, size_t) __attribute__((alias("read")));
ssize_t __write(int, const void *, size_t) __attribute__((alias("write")));

/* One part at most, as the calls above move it. */
ssize_t readv(int fd, const struct iovec *parts, int count)
{
    return count ? read(fd, parts->iov_base, parts->iov_len) : 0;
}

ssize_t writev(int fd, const struct iovec *parts, int count)
{
    return count ? write(fd, parts->iov_base, parts->iov_len) : 0;
}

static unsigned long number(const char *name)
{
    const char *text = getenv(name);
    return text ? strtoul(text, NULL, 10) : 0;
}

static int (*program_main)(int, char **, char **);

static int counted_main(int argc, char **argv, char **envp)
{
    failing = number("FAULTS_KIND");
    at = number("FAULTS_AT");
    piece = number("FAULTS_PIECE");
    int fd = open(getenv("FAULTS_SEEN"), O_RDWR);
    void *place = mmap(NULL, sizeof *seen, PROT_READ | PROT_WRITE, MAP_SHARED, fd, 0);
    if (fd < 0 || place == MAP_FAILED)
        abort();
    close(fd);
    seen = place;
    return program_main(argc, argv, envp);
}

int __libc_start_main(int (*main)(int, char **, char **), int argc, char **argv,
                      void (*init)(void), void (*fini)(void), void (*end)(void), void *stack)
{
    int (*start)(int (*)(int, char **, char **), int, char **, void (*)(void), void (*)(void),
                 void (*)(void), void *) = dlsym(RTLD_NEXT, "__libc_start_main");
    program_main = main;
    return start(counted_main, argc, argv, init, fini, end, stack);
}
