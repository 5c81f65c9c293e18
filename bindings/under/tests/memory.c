/* What calls make of memory that may not be read or written, or is not there: memory DIRECTORY. A line for each
 * call. */
#define _GNU_SOURCE
#include "checks.h"
#include <errno.h>
#include <stdint.h>
#include <stdio.h>
#include <stdlib.h>
#include <string.h>
#include <sys/inotify.h>
#include <sys/ioctl.h>
#include <sys/mman.h>
#include <sys/stat.h>
#include <sys/vfs.h>
#include <unistd.h>

enum { PAGE = 4096, LONGEST = 4095 };
static int instance;
static char *memory;                /* two pages, and none behind them */

static void protect(int first, int second) {
    if (mprotect(memory, PAGE, first) < 0 || mprotect(memory + PAGE, PAGE, second) < 0) fail("mprotect");
}

static void watch(const char *name, const void *path) { show(name, inotify_add_watch(instance, path, IN_CREATE)); }
static void count(const char *name, void *to) { show(name, ioctl(instance, FIONREAD, to)); }
static void look(const char *name, void *to) { show(name, statfs(".", to)); }

/* A path to `d` of `length` bytes. Its null byte is the one before offset `end` of the memory. */
static char *put_path(size_t length, size_t end) {
    char *path = memory + end - length - 1;
    memset(path, '/', length);
    memcpy(path, "./", 2);
    memcpy(path + length - 1, "d", 2);
    return path;
}

static void read_paths(void) {
    int both = PROT_READ | PROT_WRITE;
    watch("a path that ends with the memory", put_path(3, 2 * PAGE));
    watch("a path that ends with a page", put_path(3, PAGE));
    watch("a path over two pages", put_path(20, PAGE + 10));
    watch("the longest path", put_path(LONGEST, 2 * PAGE));
    watch("the longest path over two pages", put_path(LONGEST, 2 * PAGE - 100));
    watch("a path that is too long", put_path(LONGEST + 1, 2 * PAGE));
    memset(memory + PAGE, '/', PAGE);
    watch("a page without an end", memory + PAGE);
    watch("less than a page without an end", memory + PAGE + 1);
    put_path(3, 2 * PAGE);
    protect(both, PROT_NONE);
    watch("a path in a page that may not be read", memory + 2 * PAGE - 4);
    protect(both, both);
    char *path = put_path(20, PAGE + 10);
    protect(both, PROT_NONE);
    watch("a path that goes on in such a page", path);
    protect(both, both);
    path = put_path(3, PAGE);
    protect(both, PROT_NONE);
    watch("a path that ends before such a page", path);
    protect(PROT_READ, both);
    watch("a path in a page that may only be read", path);
    protect(both, both);
    watch("no address", NULL);
    watch("a low address", (void *)8);
    watch("the last address", (void *)-1);
    watch("an address of the kernel", (void *)(uintptr_t)0xffffffff81000000);
    watch("an address behind the memory", memory + 2 * PAGE);
}

static void write_replies(void) {
    static const char text[] = "text";
    int both = PROT_READ | PROT_WRITE;
    memset(memory, 7, 2 * PAGE);
    count("FIONREAD", memory);
    printf("it has %d\n", *(int *)memory);
    protect(both, PROT_READ);
    count("FIONREAD into a page that may only be read", memory + PAGE);
    count("FIONREAD that goes on in such a page", memory + PAGE - 2);
    count("FIONREAD before such a page", memory + PAGE - 4);
    look("statfs into such a page", memory + PAGE);
    look("statfs that goes on in such a page", memory + PAGE - 20);
    look("statfs before such a page", memory + PAGE - sizeof(struct statfs));
    printf("it has %d\n", *(int *)(memory + PAGE));
    protect(both, PROT_NONE);
    count("FIONREAD into a page that may not be read", memory + PAGE);
    look("statfs into a page that may not be read", memory + PAGE);
    protect(both, PROT_WRITE);
    count("FIONREAD into a page that may be written", memory + PAGE);
    count("FIONREAD into text", (void *)(uintptr_t)text);
    printf("it has %s\n", text);
    count("FIONREAD into code", (void *)(uintptr_t)write_replies);
    count("FIONREAD without an address", NULL);
    count("FIONREAD at the last address", (void *)-1);
    count("FIONREAD behind the memory", memory + 2 * PAGE);
    count("FIONREAD at the end of the memory", memory + 2 * PAGE - 2);
    look("statfs without an address", NULL);
    look("statfs at the end of the memory", memory + 2 * PAGE - 8);
}

int main(int words, char **word) {
    if (words != 2 || chdir(word[1]) < 0) return 2;
    memory = mmap(NULL, 3 * PAGE, PROT_READ | PROT_WRITE, MAP_PRIVATE | MAP_ANONYMOUS, -1, 0);
    if (memory == MAP_FAILED || munmap(memory + 2 * PAGE, PAGE) < 0) fail("mmap");
    if (mkdir("d", 0755) < 0 || (instance = inotify_init1(IN_NONBLOCK)) < 0) fail("d");
    read_paths();
    write_replies();
    return 0;
}
