/* A recursive watcher, to be linked without the C library's shared objects: recursive DIRECTORY [correct]. It prints each
 * path that it learns of. The naive one watches a new directory alone; the correct one then looks what is in it already. */
#define _GNU_SOURCE
#include <dirent.h>
#include <limits.h>
#include <stdio.h>
#include <stdlib.h>
#include <string.h>
#include <sys/inotify.h>
#include <sys/stat.h>
#include <unistd.h>

enum { MOST = 4096 };

static int fd, looks, count;
static char *paths[MOST], *known[MOST];

static void learn(const char *path) {
    for (int i = 0; i < count; i++) if (!strcmp(known[i], path)) return;
    if (count == MOST) exit(3);
    known[count++] = strdup(path);
    puts(path);
    fflush(stdout);
}

static void watch(const char *path, int scans) {
    int wd = inotify_add_watch(fd, path, IN_CREATE | IN_MOVED_TO);
    if (wd < 0 || wd >= MOST) return;
    paths[wd] = strdup(path);
    DIR *dir = scans ? opendir(path) : NULL;
    struct dirent *it;
    while (dir && (it = readdir(dir))) {
        char below[PATH_MAX];
        struct stat is;
        if (it->d_name[0] == '.') continue;
        snprintf(below, sizeof below, "%s/%s", path, it->d_name);
        learn(below);
        if (stat(below, &is) == 0 && S_ISDIR(is.st_mode)) watch(below, 1);
    }
    if (dir) closedir(dir);
}

int main(int words, char **word) {
    static char bytes[65536] __attribute__((aligned(8)));
    looks = words > 2 && !strcmp(word[2], "correct");
    fd = inotify_init1(IN_CLOEXEC);
    watch(word[1], 1);
    for (ssize_t size; (size = read(fd, bytes, sizeof bytes)) > 0;) {
        for (char *at = bytes; at < bytes + size;) {
            struct inotify_event *event = (void *)at;
            char path[PATH_MAX];
            at += sizeof *event + event->len;
            if (!(event->mask & (IN_CREATE | IN_MOVED_TO))) continue;
            snprintf(path, sizeof path, "%s/%s", paths[event->wd], event->name);
            learn(path);
            if (event->mask & IN_ISDIR) watch(path, looks);
        }
    }
    perror("read");
    return 1;
}
