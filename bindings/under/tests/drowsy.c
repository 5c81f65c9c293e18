/* Sleeps again and again until a time that is past. In the state that the kernel shows such a program sleeps most of the time,
 * and it never leaves its CPU.
 *   drowsy MILLISECONDS PROGRAM [ARGUMENT..]   does so for some time, and becomes PROGRAM
 *   drowsy --count DIRECTORY MOST              watches DIRECTORY. Whenever no record is left it does so for some time, and
 *                                              prints how many names there are, until these are MOST */
#define _GNU_SOURCE
#include "checks.h"
#include <dirent.h>
#include <poll.h>
#include <sys/inotify.h>
#include <time.h>
#include <unistd.h>

enum { NAP_MS = 30 };

static long now_ms(void) {
    struct timespec now;
    clock_gettime(CLOCK_MONOTONIC, &now);
    return now.tv_sec * 1000 + now.tv_nsec / 1000000;
}

static void doze(long milliseconds) {
    const struct timespec past = { 0, 1 };
    for (long began = now_ms(); now_ms() - began < milliseconds;) clock_nanosleep(CLOCK_MONOTONIC, TIMER_ABSTIME, &past, NULL);
}

static int count_names(const char *directory) {
    DIR *all = opendir(directory);
    int count = 0;
    if (!all) fail(directory);
    for (struct dirent *it; (it = readdir(all));) count += *it->d_name != '.';
    closedir(all);
    return count;
}

static void count_on(const char *directory, int most) {
    char records[4096];
    struct pollfd instance = { must(inotify_init1(IN_NONBLOCK), "inotify_init1"), POLLIN, 0 };
    must(inotify_add_watch(instance.fd, directory, IN_CREATE), "inotify_add_watch");
    for (int count = -1; count < most; must(count == most ? 0 : poll(&instance, 1, -1), "poll")) {
        while (read(instance.fd, records, sizeof records) > 0) {}
        doze(NAP_MS);
        count = count_names(directory);
        printf("%d\n", count);
        fflush(stdout);
    }
}

int main(int count, char **words) {
    if (count == 4 && !strcmp(words[1], "--count")) {
        count_on(words[2], atoi(words[3]));
        return 0;
    }
    if (count < 3) return 2;
    doze(atol(words[1]));
    execvp(words[2], words + 2);
    fail(words[2]);
}
