/* A recursive watcher: recursive DIRECTORY [correct]. It watches each new directory. Without `correct` it does not look at
 * what is in a new directory already: files that were made before its watch are lost. */
#include "events.h"

static bool looks;

static void watch(const char *path, bool scans) {
    struct dirent *it;
    if (watch_directory(path, IN_CREATE) < 0) return;
    DIR *directory = scans ? opendir(path) : NULL;
    while (directory && (it = readdir(directory))) {
        char below[PATH_MAX];
        struct stat is;
        if (*it->d_name == '.') continue;
        path_in(path, it->d_name, below);
        add_path(below);
        if (stat(below, &is) == 0 && S_ISDIR(is.st_mode)) watch(below, true);
    }
    if (directory) closedir(directory);
}

static void handle(const char *bytes, size_t size) {
    for (size_t at = 0; at < size; at += event_size(event_at(bytes, at))) {
        const struct inotify_event *event = event_at(bytes, at);
        char path[PATH_MAX];
        if (!(event->mask & IN_CREATE)) continue;
        path_in(directories[event->wd], event->name, path);
        add_path(path);
        if (event->mask & IN_ISDIR) watch(path, looks);
    }
}

int main(int count, char **words) {
    looks = count > 2 && !strcmp(words[2], "correct");
    open_instance();
    watch(words[1], true);
    read_events(handle);
}
