/* Watches a directory, and reads its events as from an inotify descriptor. */
#include "watchtree.h"
#include <stdio.h>
#include <string.h>
#include <sys/inotify.h>
#define PATH(s) s, strlen(s)

int main(void) {
    struct wt_tree tree = WT_TREE_INIT;
    _Alignas(struct inotify_event) char buffer[4096];
    if (wt_open(&tree) < 0 || wt_mkdir(&tree, PATH("/d"), 0755) < 0) return 1;
    int64_t instance = wt_inotify_init(&tree, WT_QUEUE);
    if (instance < 0 || wt_inotify_add_watch(&tree, (uint32_t)instance, PATH("/d"), IN_ALL_EVENTS) < 0) return 1;

    if (wt_create(&tree, PATH("/d/f"), 0644) < 0 || wt_rename(&tree, PATH("/d/f"), PATH("/d/g")) < 0) return 1;
    int64_t count = wt_read(&tree, (uint32_t)instance, buffer, sizeof buffer);
    for (char *at = buffer; at < buffer + count;) {
        struct inotify_event *event = (struct inotify_event *)at;
        printf("mask 0x%x cookie %u name %s\n", event->mask, event->cookie, event->len ? event->name : "");
        at += sizeof *event + event->len;
    }
    wt_close(&tree);
    return count < 0;
}
