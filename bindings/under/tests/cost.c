/* What a call costs: cost COUNT DIRECTORY. Prints microseconds. */
#define _GNU_SOURCE
#include <fcntl.h>
#include <poll.h>
#include <stdio.h>
#include <stdlib.h>
#include <sys/inotify.h>
#include <sys/ioctl.h>
#include <sys/stat.h>
#include <time.h>
#include <unistd.h>

static double now(void) {
    struct timespec t;
    clock_gettime(CLOCK_MONOTONIC, &t);
    return (double)t.tv_sec * 1e6 + (double)t.tv_nsec / 1e3;
}

/* What the calls answer is of no interest. */
static void ignore(long answer) { (void)answer; }

static void make_and_remove(void) {
    ignore(close(open("g", O_CREAT | O_EXCL | O_WRONLY, 0644)));
    ignore(unlink("g"));
}

#define EACH(name, call) do { \
    double start = now(); \
    for (int i = 0; i < count; i++) call; \
    printf("%-34s %8.2f us\n", name, (now() - start) / count); \
    fflush(stdout); \
} while (0)

int main(int words, char **word) {
    char bytes[4096] = "", path[4096];
    struct stat is;
    int waiting;
    if (words != 3 || chdir(word[2]) < 0) return 2;
    int count = atoi(word[1]), instance = inotify_init1(IN_NONBLOCK), file = open("f", O_CREAT | O_RDWR, 0644);
    if (instance < 0 || file < 0 || write(file, bytes, 100) != 100) return 1;
    struct pollfd one = { instance, POLLIN, 0 };
    snprintf(path, sizeof path, "%s/f", word[2]);
    EACH("getppid", ignore(getppid()));
    EACH("stat", ignore(stat("f", &is)));
    EACH("fstat", ignore(fstat(file, &is)));
    EACH("stat of an absolute path", ignore(stat(path, &is)));
    EACH("open, close", ignore(close(open("f", O_RDONLY))));
    EACH("pread", ignore(pread(file, bytes, 100, 0)));
    EACH("pwrite", ignore(pwrite(file, bytes, 100, 0)));
    EACH("create, unlink", make_and_remove());
    EACH("inotify_add_watch", ignore(inotify_add_watch(instance, ".", IN_CREATE | IN_DELETE)));
    EACH("inotify_rm_watch (refused)", ignore(inotify_rm_watch(instance, 99)));
    EACH("inotify_init1, close", ignore(close(inotify_init1(0))));
    EACH("ioctl FIONREAD", ignore(ioctl(instance, FIONREAD, &waiting)));
    EACH("ioctl FIONREAD of another file", ignore(ioctl(0, FIONREAD, &waiting)));
    EACH("read, EAGAIN", ignore(read(instance, bytes, sizeof bytes)));
    EACH("poll(0)", ignore(poll(&one, 1, 0)));
    EACH("an event: create, unlink, read", { make_and_remove(); ignore(read(instance, bytes, sizeof bytes)); });
    return 0;
}
