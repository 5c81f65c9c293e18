/* Calls by the entry of 32-bit programs, which a 64-bit one may take too: entry32 DIRECTORY. A line for each call. */
#define _GNU_SOURCE
#include <errno.h>
#include <fcntl.h>
#include <stdio.h>
#include <string.h>
#include <sys/inotify.h>
#include <sys/mman.h>
#include <unistd.h>

enum { GETPID = 20, FCNTL = 55, FCNTL64 = 221, INOTIFY_INIT = 291, INOTIFY_ADD_WATCH = 292, INOTIFY_RM_WATCH = 293,
       INOTIFY_INIT1 = 332, FANOTIFY_INIT = 338 };

static void call(const char *name, long number, long a, long b, long c) {
    long result;
    __asm__ volatile("int $0x80" : "=a"(result) : "a"(number), "b"(a), "c"(b), "d"(c)
                     : "memory", "cc", "r8", "r9", "r10", "r11");
    printf("%s: %s\n", name, result < 0 ? strerrorname_np((int)-result) : "ok");
    fflush(stdout);
}

int main(int words, char **word) {
    if (words != 2 || chdir(word[1]) < 0) return 2;
    char *path = mmap(NULL, 4096, PROT_READ | PROT_WRITE, MAP_PRIVATE | MAP_ANONYMOUS | MAP_32BIT, -1, 0);
    int instance = inotify_init1(0), directory = open(".", O_RDONLY), wd = inotify_add_watch(instance, ".", IN_CREATE);
    if (path == MAP_FAILED || wd < 0 || directory < 0) return 1;
    strcpy(path, ".");
    call("getpid", GETPID, 0, 0, 0);
    call("inotify_init", INOTIFY_INIT, 0, 0, 0);
    call("inotify_init1", INOTIFY_INIT1, IN_NONBLOCK, 0, 0);
    call("inotify_add_watch", INOTIFY_ADD_WATCH, instance, (long)path, IN_CREATE);
    call("inotify_rm_watch", INOTIFY_RM_WATCH, instance, wd, 0);
    call("fanotify_init", FANOTIFY_INIT, 0, 0, 0);
    call("fcntl F_NOTIFY", FCNTL, directory, F_NOTIFY, DN_CREATE);
    call("fcntl64 F_NOTIFY", FCNTL64, directory, F_NOTIFY, DN_CREATE);
    call("fcntl F_GETFL", FCNTL, directory, F_GETFL, 0);
    printf("then by the other entry: %s\n", inotify_rm_watch(instance, wd) < 0 ? "refused" : "ok");
    return 0;
}
