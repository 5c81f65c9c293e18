/* Prints the events that libinotifytools reports for a directory, recursively. */
#include <inotifytools/inotify.h>
#include <inotifytools/inotifytools.h>
#include <stdio.h>

int main(int count, char **words) {
    if (count != 2 || !inotifytools_initialize() || !inotifytools_watch_recursively(words[1], IN_ALL_EVENTS)) return 1;
    for (struct inotify_event *it; (it = inotifytools_next_event(-1));) {
        inotifytools_printf(it, (char *)"%w%f %e\n");
        fflush(stdout);
    }
    return 0;
}
