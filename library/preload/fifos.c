/* FIFOs below one folder, which BINDINGCLAY_PRELOAD_FIFOS names. The host has a FIFO of the same name, so that stat, chmod and rename work. After a
 * fork other processes may know the folder, and from then on all FIFOs are the host's. */
#include "preload.h"

#include <limits.h>
#include <stdarg.h>
#include <string.h>

enum { MOST_FIFOS = 256, NAME_BYTES = 24 };

/* The FIFOs of the layer. Each has a number, which is its name there; a place without one has 0. */
static struct {
    dev_t device;
    ino_t inode;
    int number;
} fifos[MOST_FIFOS];

static char folder[PATH_MAX];
static atomic_int used;

void find_folder(void)
{
    const char *name = getenv("BINDINGCLAY_PRELOAD_FIFOS");
    if (name == NULL || realpath(name, folder) == NULL)
        folder[0] = '\0';
}

/* Under the lock: the number of a FIFO of the layer, or NO_FIFO. */
static int number_of(const struct stat *facts)
{
    for (int i = 0; i < MOST_FIFOS && S_ISFIFO(facts->st_mode); i++)
        if (fifos[i].number != NO_FIFO && fifos[i].device == facts->st_dev && fifos[i].inode == facts->st_ino)
            return fifos[i].number;
    return NO_FIFO;
}

/* Under the lock: the place with a number, or -1. */
static int place_of(int number)
{
    int place = MOST_FIFOS - 1;
    while (place >= 0 && fifos[place].number != number)
        place--;
    return place;
}

static const char *name_of(int number, char name[NAME_BYTES])
{
    snprintf(name, NAME_BYTES, "%d", number);
    return name;
}

void give_up_fifo(int number)
{
    char name[NAME_BYTES];
    int place = number != NO_FIFO ? place_of(number) : -1;
    if (place < 0)
        return;
    fifos[place].number = NO_FIFO;
    used--;
    if (bc_unlink(&layer, name_of(number, name)) < 0)
        die("the name of a FIFO");
}

void give_up_fifos(void)
{
    for (int i = 0; i < MOST_FIFOS; i++)
        give_up_fifo(fifos[i].number);
    folder[0] = '\0';
}

/* Whether what a descriptor names is below the folder. */
static bool is_below(int fd)
{
    char link[40], path[PATH_MAX];
    snprintf(link, sizeof link, "/proc/self/fd/%d", fd);
    ssize_t size = readlink(link, path, sizeof path);
    size_t length = strlen(folder);
    return length > 0 && size > (ssize_t)length && memcmp(path, folder, length) == 0 && path[length] == '/';
}

/* Under the lock: makes a new FIFO of the host one of the layer. If there is no room for it, it stays the host's. */
static void take_in(const struct stat *facts)
{
    static int made;
    char name[NAME_BYTES];
    /* an older one may have had the same inode */
    give_up_fifo(number_of(facts));
    int place = place_of(NO_FIFO);
    if (place < 0 || bc_mkfifo(&layer, name_of(made + 1, name), 0600) < 0)
        return;
    fifos[place].device = facts->st_dev;
    fifos[place].inode = facts->st_ino;
    fifos[place].number = ++made;
    used++;
}

int mkfifoat(int directory, const char *path, mode_t mode)
{
    struct visit visit;
    struct stat facts;
    int status = host()->mkfifoat(directory, path, mode);
    if (status < 0 || layer.shared == NULL)
        return status;
    enter(&visit);
    int fd = folder[0] != '\0' ? host()->openat(directory, path, O_PATH | O_NOFOLLOW | O_CLOEXEC) : -1;
    if (fd >= 0 && is_below(fd) && host()->fstat(fd, &facts) == 0)
        take_in(&facts);
    if (fd >= 0)
        host()->close(fd);
    leave(&visit);
    return status;
}

int mkfifo(const char *path, mode_t mode)
{
    return mkfifoat(AT_FDCWD, path, mode);
}

/* ---- Opens ---- */

/* Under the lock: a placeholder that names a FIFO of the layer, and its number there, or -1 if the path names none. */
static int found(int directory, const char *path, int flags, int *fifo)
{
    struct stat facts;
    int fd = host()->openat(directory, path, O_PATH | (flags & (O_NOFOLLOW | O_CLOEXEC)));
    if (fd < 0)
        return -1;
    if (fd >= LEAST_NUMBER && fd < MOST_NUMBERS && host()->fstat(fd, &facts) == 0 && (*fifo = number_of(&facts)) != NO_FIFO)
        return fd;
    host()->close(fd);
    return -1;
}

/* Under the lock: opens the FIFO of a placeholder. May wait, and a move ends that. */
static int open_in_layer(int fd, int fifo, int flags)
{
    char name[NAME_BYTES];
    int made = bc_open(&layer, name_of(fifo, name), flags & (O_ACCMODE | O_NONBLOCK | O_APPEND));
    if (made < 0) {
        host()->close(fd);
        return -1;
    }
    counts[FIFO_OPENS]++;
    enter_new(fd, made, 0, fifo);
    return fd;
}

/* What a name of /proc says of a placeholder isn't what a program looks for. */
static bool is_of_descriptors(const char *path)
{
    return strncmp(path, "/proc/self/fd/", 14) == 0 || strncmp(path, "/dev/fd/", 8) == 0;
}

static int open_at(int directory, const char *path, int flags, mode_t mode)
{
    struct visit visit;
    int fifo, fd;
    bool is_plain = (flags & (O_PATH | O_DIRECTORY | O_EXCL)) == 0;
    if (is_of_descriptors(path))
        move_first(atoi(strrchr(path, '/') + 1));
    while (is_plain && used > 0) {
        enter(&visit);
        fd = found(directory, path, flags, &fifo);
        int opened = fd >= 0 ? open_in_layer(fd, fifo, flags) : -1;
        if (!leave_to_repeat(&visit, opened) && fd >= 0)
            return opened;
        if (fd < 0)
            break;
    }
    return host()->openat(directory, path, flags, mode);
}

/* The mode behind the flags, if there is one. */
static mode_t mode_behind(int flags, va_list arguments)
{
    return (flags & (O_CREAT | O_TMPFILE)) != 0 ? va_arg(arguments, mode_t) : 0;
}

int open(const char *path, int flags, ...)
{
    va_list arguments;
    va_start(arguments, flags);
    mode_t mode = mode_behind(flags, arguments);
    va_end(arguments);
    return open_at(AT_FDCWD, path, flags, mode);
}

int openat(int directory, const char *path, int flags, ...)
{
    va_list arguments;
    va_start(arguments, flags);
    mode_t mode = mode_behind(flags, arguments);
    va_end(arguments);
    return open_at(directory, path, flags, mode);
}

/* Streams are the host's, and so are all FIFOs from the first one on that a stream is opened on. */
FILE *fopen(const char *path, const char *mode)
{
    struct visit visit;
    int fifo, fd;
    if (used > 0) {
        enter(&visit);
        fd = found(AT_FDCWD, path, O_CLOEXEC, &fifo);
        if (fd >= 0) {
            host()->close(fd);
            move_all();
        }
        leave(&visit);
    }
    return host()->fopen(path, mode);
}

/* ---- Names that go ---- */

int unlinkat(int directory, const char *path, int flags)
{
    struct visit visit;
    struct stat facts;
    if (used == 0 || fstatat(directory, path, &facts, AT_SYMLINK_NOFOLLOW) < 0)
        return host()->unlinkat(directory, path, flags);
    enter(&visit);
    int status = host()->unlinkat(directory, path, flags);
    if (status == 0 && facts.st_nlink == 1)
        give_up_fifo(number_of(&facts));
    leave(&visit);
    return status;
}

int unlink(const char *path)
{
    return unlinkat(AT_FDCWD, path, 0);
}
