/* The folder of the script's files: docs/RULES.md, Regular files and names. */
#include "beside.h"

#include <dirent.h>
#include <sys/stat.h>

static char folder[4096];
static int folder_fd = -1, files_fd = -1;

int files_folder(void)
{
    return files_fd;
}

bool make_folder(void)
{
    const char *given = getenv("TMPDIR");
    const char *place = given != NULL && given[0] != '\0' ? given : access("/dev/shm", W_OK) == 0 ? "/dev/shm" : "/tmp";
    if (snprintf(folder, sizeof folder, "%s/beside.XXXXXX", place) >= (int)sizeof folder || mkdtemp(folder) == NULL)
        return false;
    folder_fd = open(folder, O_RDONLY | O_DIRECTORY | O_CLOEXEC);
    if (folder_fd < 0 || mkdirat(folder_fd, "files", 0700) != 0)
        return false;
    files_fd = openat(folder_fd, "files", O_RDONLY | O_DIRECTORY | O_CLOEXEC);
    return files_fd >= 0;
}

/* The files that . and .. are names of in a script are beside the folder of all others: there these are names of folders. */
static void rename_dots(struct request *request)
{
    if (request->name_length == 1 && request->name[0] == '.')
        request->name_length = (size_t)sprintf(request->name, "../dot");
    else if (request->name_length == 2 && memcmp(request->name, "..", 2) == 0)
        request->name_length = (size_t)sprintf(request->name, "../dotdot");
}

/* A name with a slash is one of folders on the host, and one with a NUL can't be given to it. */
bool take_name(struct request *request)
{
    if (memchr(request->name, '/', request->name_length) != NULL || memchr(request->name, '\0', request->name_length) != NULL)
        return false;
    rename_dots(request);
    return true;
}

void empty_folder(void)
{
    if (folder_fd < 0)
        return;
    DIR *all = files_fd < 0 ? NULL : fdopendir(files_fd);
    for (struct dirent *entry; all != NULL && (entry = readdir(all)) != NULL;)
        unlinkat(files_fd, entry->d_name, 0);
    unlinkat(folder_fd, "dot", 0);
    unlinkat(folder_fd, "dotdot", 0);
    unlinkat(folder_fd, "files", AT_REMOVEDIR);
    if (all == NULL || closedir(all) != 0 || rmdir(folder) != 0)
        fprintf(stderr, "beside: %s stays\n", folder);
    close(folder_fd);
}
