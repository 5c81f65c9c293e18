/* Prints a file whenever it changes or another takes its name: reload DIRECTORY NAME [correct]. It watches the file, and the
 * directory for a new file of that name. Without `correct` it keeps the watch descriptor of a file that is gone, and waits
 * for the directory to say so: a file that was replaced between its two watches is never watched. */
#include "events.h"
#include <fcntl.h>

static char path[PATH_MAX];
static int file_wd, directory_wd;
static const char *file_name;
static bool is_correct;

static void watch_file(void) { file_wd = inotify_add_watch(inotify_fd, path, IN_CLOSE_WRITE); }

static void show(void) {
    char bytes[256];
    int fd = open(path, O_RDONLY);
    ssize_t size = fd < 0 ? 0 : read(fd, bytes, sizeof bytes);
    if (fd >= 0) close(fd);
    printf("%s %.*s\n", fd < 0 ? "gone" : "is", (int)(size > 0 ? size : 0), bytes);
    fflush(stdout);
}

static void handle(const char *bytes, size_t size) {
    for (size_t at = 0; at < size; at += event_size(event_at(bytes, at))) {
        const struct inotify_event *event = event_at(bytes, at);
        bool is_named = event->wd == directory_wd && event->len && !strcmp(event->name, file_name);
        bool is_dead = is_correct && event->wd == file_wd && event->mask & IN_IGNORED;
        if ((is_named && event->mask & (IN_CREATE | IN_MOVED_TO)) || is_dead) watch_file();
        if (is_named || is_dead || (event->wd == file_wd && event->mask & IN_CLOSE_WRITE)) show();
    }
}

int main(int count, char **words) {
    file_name = words[2];
    is_correct = count > 3 && !strcmp(words[3], "correct");
    path_in(words[1], file_name, path);
    open_instance();
    watch_file();
    directory_wd = watch_directory(words[1], IN_CREATE | IN_DELETE | IN_MOVED_FROM | IN_MOVED_TO);
    if (directory_wd < 0) return 1;
    if (is_correct && file_wd < 0) watch_file();    /* it was replaced under its watch */
    show();
    read_events(handle);
}
