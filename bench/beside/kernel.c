/* The calls of a script by system calls, for benchmarks: in the folder that it is run in, which should be an empty one of a
 * tmpfs. It reads a script on standard input and prints what the calls answer; it has what the scripts of bench/ use, but
 * for cuts, which no kernel has. */
#define _GNU_SOURCE
#include <dirent.h>
#include <errno.h>
#include <fcntl.h>
#include <stdio.h>
#include <stdlib.h>
#include <string.h>
#include <sys/inotify.h>
#include <sys/stat.h>
#include <unistd.h>

static int instances[1024];
static int last;
static char buffer[1 << 16];

/* The path below the folder. */
static const char *path(const char *word) { return word[1] ? word + 1 : "."; }

static int close_at(int descriptor) { return descriptor < 0 ? -1 : close(descriptor); }

static long write_at(const char *where, long offset, const char *hex) {
    char bytes[4096];
    size_t count = 0;
    for (; hex[2 * count] && hex[0] != '-'; count++) {
        unsigned byte;
        sscanf(hex + 2 * count, "%2x", &byte);
        bytes[count] = (char)byte;
    }
    int file = open(where, O_WRONLY);
    if (file < 0) return -1;
    long written = pwrite(file, bytes, count, offset);
    close(file);
    return written;
}

/* Prints bytes of a file. False if it can't be read. */
static int print_contents(const char *where, long offset, size_t count) {
    int file = open(where, O_RDONLY);
    if (file < 0) return 0;
    long answer = pread(file, buffer, count < sizeof buffer ? count : sizeof buffer, offset);
    close(file);
    if (answer < 0) return 0;
    fputs("ok ", stdout);
    for (long i = 0; i < answer; i++) printf("%02x", (unsigned char)buffer[i]);
    puts(answer ? "" : "-");
    return 1;
}

static void print_records(long count) {
    printf("ok %ld\n", count);
    for (char *at = buffer; at < buffer + count;) {
        struct inotify_event *event = (struct inotify_event *)at;
        printf("  %d %08x %u%s%s\n", event->wd, event->mask, event->cookie, event->len ? " " : "", event->len ? event->name : "");
        at += sizeof *event + event->len;
    }
}

static void list(const char *where) {
    DIR *folder = opendir(where);
    for (struct dirent *entry; folder && (entry = readdir(folder));) printf("  %s\n", entry->d_name);
    if (folder) closedir(folder);
}

/* Carries out a call, and prints what it answers. */
static void call(char **words, int count) {
    const char *name = words[0];
    const char *one = count > 1 ? words[1] : "/", *two = count > 2 ? words[2] : "0", *three = count > 3 ? words[3] : "0";
    struct stat told;
    long answer;
    if (!strcmp(name, "create")) answer = close_at(open(path(one), O_WRONLY | O_CREAT | O_EXCL, (mode_t)strtol(two, 0, 8)));
    else if (!strcmp(name, "mkdir")) answer = mkdir(path(one), (mode_t)strtol(two, 0, 8));
    else if (!strcmp(name, "write")) answer = write_at(path(one), atol(two), three);
    else if (!strcmp(name, "cat")) {
        if (print_contents(path(one), atol(two), (size_t)atol(three))) return;
        answer = -1;
    } else if (!strcmp(name, "truncate")) answer = truncate(path(one), atol(two));
    else if (!strcmp(name, "chmod")) answer = chmod(path(one), (mode_t)strtol(two, 0, 8));
    else if (!strcmp(name, "link")) answer = link(path(one), path(two));
    else if (!strcmp(name, "unlink")) answer = unlink(path(one));
    else if (!strcmp(name, "rmdir")) answer = rmdir(path(one));
    else if (!strcmp(name, "rename")) answer = rename(path(one), path(two));
    else if (!strcmp(name, "rename2")) answer = renameat2(AT_FDCWD, path(one), AT_FDCWD, path(two), (unsigned)atol(three));
    else if (!strcmp(name, "stat")) answer = stat(path(one), &told) ? -1 : (long)told.st_ino;
    else if (!strcmp(name, "list")) list(path(one)), answer = 0;
    else if (!strcmp(name, "init")) answer = (instances[++last] = inotify_init1(IN_NONBLOCK)) < 0 ? -1 : last;
    else if (!strcmp(name, "watch")) answer = inotify_add_watch(instances[atol(one)], path(two), (unsigned)strtoul(three, 0, 0));
    else if (!strcmp(name, "read")) {
        answer = read(instances[atol(one)], buffer, (size_t)atol(two));
        if (answer > 0) {
            print_records(answer);
            return;
        }
    } else {
        fprintf(stderr, "kernel: no such command: %s\n", name);
        exit(2);
    }
    if (answer < 0) printf("err %d\n", errno);
    else printf("ok %ld\n", answer);
}

int main(void) {
    static char line[1 << 13], text[1 << 16];
    setvbuf(stdout, text, _IOFBF, sizeof text);
    while (fgets(line, sizeof line, stdin)) {
        char *words[5];
        int count = 0;
        for (char *word = strtok(line, " \n"); word && count < 5; word = strtok(0, " \n")) words[count++] = word;
        if (count && words[0][0] != '#') call(words, count);
    }
    return 0;
}
