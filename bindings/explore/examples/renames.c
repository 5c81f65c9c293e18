/* Keeps the names in a directory: renames DIRECTORY [correct]. Without `correct` it takes the two records of a rename for
 * neighbours in one read: if they fall into two reads, the new name is lost. */
#include "events.h"

enum { CHANGES = IN_CREATE | IN_DELETE | IN_MOVED_FROM | IN_MOVED_TO };
static const char *watched;
static bool is_correct;

static void scan(void) {
    struct dirent *it;
    DIR *directory = opendir(watched);
    while (directory && (it = readdir(directory))) {
        char path[PATH_MAX];
        if (*it->d_name == '.') continue;
        path_in(watched, it->d_name, path);
        add_path(path);
    }
    if (directory) closedir(directory);
}

static void handle(const char *bytes, size_t size) {
    for (size_t at = 0, next; at < size; at = next) {
        const struct inotify_event *event = event_at(bytes, at);
        char path[PATH_MAX], to[PATH_MAX];
        next = at + event_size(event);
        if (!event->len) continue;
        path_in(watched, event->name, path);
        if (event->mask & (IN_DELETE | IN_MOVED_FROM)) remove_path(path);
        if (event->mask & IN_CREATE || (is_correct && event->mask & IN_MOVED_TO)) add_path(path);
        const struct inotify_event *other = next < size ? event_at(bytes, next) : NULL;
        if (is_correct || !(event->mask & IN_MOVED_FROM) || !other || other->cookie != event->cookie) continue;
        path_in(watched, other->name, to);
        add_path(to);
        next += event_size(other);
    }
}

int main(int count, char **words) {
    watched = words[1];
    is_correct = count > 2 && !strcmp(words[2], "correct");
    open_instance();
    if (watch_directory(watched, CHANGES) < 0) return 1;
    scan();
    read_events(handle);
}
