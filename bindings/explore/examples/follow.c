/* Prints what is appended to a file: follow FILE [correct]. Without `correct` it reads one entry of four bytes for each
 * IN_MODIFY; but two equal records of which none was read are one. */
#include "events.h"
#include <fcntl.h>

enum { ENTRY = 4 };
static int file;
static bool is_correct;

/* False at the end of the file. */
static bool print_entry(void) {
    char entry[ENTRY];
    ssize_t size = read(file, entry, sizeof entry);
    if (size > 0 && write(STDOUT_FILENO, entry, (size_t)size) != size) exit(1);
    return size > 0;
}

static void handle(const char *bytes, size_t size) {
    for (size_t at = 0; at < size; at += event_size(event_at(bytes, at))) {
        if (!(event_at(bytes, at)->mask & IN_MODIFY)) continue;
        while (print_entry() && is_correct) {}
    }
}

int main(int count, char **words) {
    is_correct = count > 2 && !strcmp(words[2], "correct");
    open_instance();
    if (inotify_add_watch(inotify_fd, words[1], IN_MODIFY) < 0 || (file = open(words[1], O_RDONLY)) < 0) return 1;
    while (print_entry()) {}
    read_events(handle);
}
