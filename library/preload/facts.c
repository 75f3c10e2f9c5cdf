/* What is told of a descriptor; and other names that the C library has for the calls of this object, which its headers put into programs. */
#include "preload.h"

#include <errno.h>
#include <stdarg.h>

int fstat(int fd, struct stat *facts)
{
    struct visit visit;
    if (!enter_for(fd, &visit))
        return host()->fstat(fd, facts);
    /* the placeholder of a FIFO is the FIFO of the host */
    int status = table[fd].fifo != NO_FIFO ? host()->fstat(fd, facts) : bc_fstat(&layer, layers(fd), facts);
    if (table[fd].fifo == NO_FIFO) {
        /* what Linux tells of a pipe that this user made */
        facts->st_mode |= S_IRUSR | S_IWUSR;
        facts->st_ino = table[fd].pipe;
        facts->st_uid = geteuid();
        facts->st_gid = getegid();
        facts->st_size = 0;
    }
    leave(&visit);
    return status;
}

off_t lseek(int fd, off_t offset, int whence)
{
    struct visit visit;
    if (!enter_for(fd, &visit))
        return host()->lseek(fd, offset, whence);
    off_t answer = bc_lseek(&layer, layers(fd), offset, whence);
    leave(&visit);
    return answer;
}

/* Under the lock. */
static int controlled(int fd, unsigned long request, void *argument)
{
    int flags;
    switch (request) {
    case FIONREAD:
        return bc_ioctl(&layer, layers(fd), request, argument);
    case FIONBIO:
        flags = bc_fcntl(&layer, layers(fd), F_GETFL);
        return bc_fcntl(&layer, layers(fd), F_SETFL, *(int *)argument != 0 ? flags | O_NONBLOCK : flags & ~O_NONBLOCK);
    case FIOCLEX:
    case FIONCLEX:
        return host()->fcntl(fd, F_SETFD, request == FIOCLEX ? FD_CLOEXEC : 0);
    default:
        errno = ENOTTY;
        return -1;
    }
}

int ioctl(int fd, unsigned long request, ...)
{
    va_list arguments;
    struct visit visit;
    va_start(arguments, request);
    void *argument = va_arg(arguments, void *);
    va_end(arguments);
    if (request == FIOASYNC)
        move_first(fd);
    if (!enter_for(fd, &visit))
        return host()->ioctl(fd, request, argument);
    int status = controlled(fd, request, argument);
    leave(&visit);
    return status;
}

int isatty(int fd)
{
    if (!is_ours(fd))
        return host()->isatty(fd);
    errno = ENOTTY;
    return 0;
}

/* ---- Other names ---- */

/* Programs with offsets of 64 bits by name: on x86-64 all have them. */
_Static_assert(sizeof(off_t) == sizeof(off64_t) && sizeof(struct stat) == sizeof(struct stat64), "there is one size of offsets");

int fstat64(int fd, struct stat64 *facts)
{
    return fstat(fd, (struct stat *)(void *)facts);
}

off64_t lseek64(int fd, off64_t offset, int whence)
{
    return lseek(fd, offset, whence);
}

ssize_t pread64(int fd, void *into, size_t size, off64_t offset)
{
    return pread(fd, into, size, offset);
}

ssize_t pwrite64(int fd, const void *bytes, size_t size, off64_t offset)
{
    return pwrite(fd, bytes, size, offset);
}

int ftruncate64(int fd, off64_t size)
{
    return ftruncate(fd, size);
}

ssize_t sendfile64(int to, int from, off64_t *offset, size_t size)
{
    return sendfile(to, from, offset, size);
}

FILE *fopen64(const char *path, const char *mode)
{
    return fopen(path, mode);
}

int fcntl64(int fd, int command, ...)
{
    va_list arguments;
    va_start(arguments, command);
    long argument = va_arg(arguments, long);
    va_end(arguments);
    return fcntl(fd, command, argument);
}

int open64(const char *path, int flags, ...)
{
    va_list arguments;
    va_start(arguments, flags);
    mode_t mode = (flags & (O_CREAT | O_TMPFILE)) != 0 ? va_arg(arguments, mode_t) : 0;
    va_end(arguments);
    return open(path, flags, mode);
}

int openat64(int directory, const char *path, int flags, ...)
{
    va_list arguments;
    va_start(arguments, flags);
    mode_t mode = (flags & (O_CREAT | O_TMPFILE)) != 0 ? va_arg(arguments, mode_t) : 0;
    va_end(arguments);
    return openat(directory, path, flags, mode);
}

/* Programs that were built with _FORTIFY_SOURCE call these, with the size of a buffer as a last argument. The check of it is left to the host's own
 * headers, which do it where a size is known as a program is built. */
ssize_t __read_chk(int fd, void *into, size_t size, size_t room);
int __poll_chk(struct pollfd *entries, nfds_t count, int timeout, size_t room);
int __ppoll_chk(struct pollfd *entries, nfds_t count, const struct timespec *timeout, const sigset_t *mask, size_t room);
int __open_2(const char *path, int flags);
int __open64_2(const char *path, int flags);

static void need_room(size_t wanted, size_t room)
{
    if (wanted > room)
        abort();
}

ssize_t __read_chk(int fd, void *into, size_t size, size_t room)
{
    need_room(size, room);
    return read(fd, into, size);
}

int __poll_chk(struct pollfd *entries, nfds_t count, int timeout, size_t room)
{
    need_room(count, room / sizeof *entries);
    return poll(entries, count, timeout);
}

int __ppoll_chk(struct pollfd *entries, nfds_t count, const struct timespec *timeout, const sigset_t *mask, size_t room)
{
    need_room(count, room / sizeof *entries);
    return ppoll(entries, count, timeout, mask);
}

int __open_2(const char *path, int flags)
{
    return open(path, flags);
}

int __open64_2(const char *path, int flags)
{
    return open(path, flags);
}
