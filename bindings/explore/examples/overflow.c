/* Keeps the names in a directory: overflow DIRECTORY [correct]. Without `correct` it does not scan again when its queue was
 * full and records are lost. */
#include "events.h"

static const char *watched;
static bool is_correct;

/* Forgets what is gone, and learns what is new. */
static void scan(void) {
    struct dirent *it;
    char path[PATH_MAX];
    for (int i = known_count - 1; i >= 0; i--) if (access(known[i], F_OK) < 0) remove_path(known[i]);
    DIR *directory = opendir(watched);
    while (directory && (it = readdir(directory))) {
        if (*it->d_name == '.') continue;
        path_in(watched, it->d_name, path);
        add_path(path);
    }
    if (directory) closedir(directory);
}

static void handle(const char *bytes, size_t size) {
    for (size_t at = 0; at < size; at += event_size(event_at(bytes, at))) {
        const struct inotify_event *event = event_at(bytes, at);
        char path[PATH_MAX];
        if (event->mask & IN_Q_OVERFLOW && is_correct) scan();
        if (!event->len) continue;
        path_in(watched, event->name, path);
        if (event->mask & IN_CREATE) add_path(path);
        if (event->mask & IN_DELETE) remove_path(path);
    }
}

int main(int count, char **words) {
    watched = words[1];
    is_correct = count > 2 && !strcmp(words[2], "correct");
    open_instance();
    if (watch_directory(watched, IN_CREATE | IN_DELETE) < 0) return 1;
    scan();
    read_events(handle);
}
