/* The inotify instances, which are open files of the mount: read(2), poll(2), dup(2) and close(2) of one are the kernel's. */
#ifndef INSTANCES_H
#define INSTANCES_H
#include "tree/requests.h"
#include <sys/ioctl.h>

/* The calls that the supervisor makes as ioctl(2) of an instance; each answers as the call of its name. */
struct watch_call { uint64_t number; uint32_t mask, unused; };  /* number 0: a file outside the mount */
#define CALL_WATCH _IOW('w', 1, struct watch_call)
#define CALL_UNWATCH _IOW('w', 2, int32_t)
#define CALL_BYTES _IO('w', 3)

void open_instance(fuse_req_t req, struct fuse_file_info *file);
void close_instance(struct fuse_file_info *file);
void read_instance(fuse_req_t req, size_t size, struct fuse_file_info *file);
void poll_instance(fuse_req_t req, struct fuse_file_info *file, struct fuse_pollhandle *handle);
void call_instance(fuse_req_t req, unsigned command, struct fuse_file_info *file, const void *in, size_t in_size);

/* Answers each waiting read for which there is a record now, and wakes each poll. */
void deliver(void);
/* While deliveries are held, deliver() does nothing. Returns whether they were held. */
bool hold_deliveries(bool holds);

/* What the open instances say of the program. */
struct asking {
    bool in_vain;       /* one was asked, and had no record */
    bool polled;        /* one has no record, and was polled before */
    bool unread;        /* one has records that wait */
};
struct asking who_asks(void);

/* Counts: the instances that are open, and all that were made; the reads that took records, and those of them after a line
 * behind the first mark; the calls that made a watch or an instance. */
struct instance_counts { uint64_t open, made, reads, reads_after_line, calls; };
extern struct instance_counts instance_counts;
#endif
