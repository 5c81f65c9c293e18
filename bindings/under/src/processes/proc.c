/* Reads /proc. */
#include "processes/proc.h"
#include <fcntl.h>
#include <unistd.h>

static DIR *proc;

void open_proc(void) {
    if (proc) closedir(proc);
    if (!(proc = opendir("/proc"))) fail("/proc");
}

DIR *proc_from_start(void) {
    rewinddir(proc);
    return proc;
}

bool read_proc_file(const char *name, char *out, size_t size) {
    int fd = openat(dirfd(proc), name, O_RDONLY | O_CLOEXEC);
    ssize_t count = fd < 0 ? -1 : read(fd, out, size - 1);
    if (fd >= 0) close(fd);
    out[count > 0 ? count : 0] = 0;
    return count > 0;
}

DIR *open_proc_folder(const char *name) {
    int fd = openat(dirfd(proc), name, O_RDONLY | O_DIRECTORY | O_CLOEXEC);
    DIR *all = fd < 0 ? NULL : fdopendir(fd);
    if (fd >= 0 && !all) close(fd);
    return all;
}

bool read_proc_link(const char *name, char *out, size_t size) {
    ssize_t length = readlinkat(dirfd(proc), name, out, size - 1);
    out[length > 0 ? length : 0] = 0;
    return length > 0;
}
