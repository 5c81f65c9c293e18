/* The inotify instances. No request waits but a read(2) that may: a poll is always answered at once, as the kernel holds
 * locks of an epoll descriptor meanwhile. */
#include "inotify/instances.h"
#include "command/options.h"
#include "output/asked.h"
#include "output/record.h"
#include "output/trace.h"
#include "script/schedule.h"
#include "script/script.h"
#include "script/turn.h"
#include "tree/nodes.h"
#include "tree/tree.h"
#include <errno.h>
#include <fcntl.h>
#include <linux/fuse.h>
#include <poll.h>
#include <stdlib.h>
#include <sys/inotify.h>

enum { INSTANCES = 128, LARGEST_READ = 1 << 20, FIRST_OUTSIDE = 1 << 30 };

struct reader { fuse_req_t req; size_t size; };
struct instance {
    bool is_open, was_asked, was_polled;    /* asked: it was asked for a record, and had none since */
    uint32_t id;
    int64_t waiting;                        /* how many records waited when somebody was last woken */
    int64_t counted;                        /* how many waited when FIONREAD last returned their bytes */
    struct fuse_pollhandle *poller;
    struct reader *readers;                 /* that wait, the first one first */
    int reader_count, reader_capacity;
    int32_t next_outside;                   /* descriptors of watches outside the mount */
};
static struct instance instances[INSTANCES];
static char buffer[LARGEST_READ];
struct instance_counts instance_counts;

static struct instance *instance_of(const struct fuse_file_info *file) { return instances + file->fh; }

static int64_t waiting_in(const struct instance *it) { return wt_waiting(&tree, it->id); }

/* ---- open and close */

void open_instance(fuse_req_t req, struct fuse_file_info *file) {
    (void)file;
    if (!by_supervisor(req)) {              /* by /proc/self/fd */
        fuse_reply_err(req, ENXIO);
        return;
    }
    work_count++;
    ask("inotify_init");
    run_lines_before_request();
    int i = 0;
    while (i < INSTANCES && instances[i].is_open) i++;
    int64_t id = i < INSTANCES ? CALL(0, wt_inotify_init(&tree, options.queue)) : -EMFILE;
    if (is_refused(req, id)) return;
    instances[i] = (struct instance){ .is_open = true, .id = (uint32_t)id, .next_outside = FIRST_OUTSIDE };
    instance_counts.open++;
    instance_counts.made++;
    instance_counts.calls++;
    trace("# instance %d\n", (int)id);
    /* A stream has no lock of its position, so that a read that waits holds up no other. libfuse 3.14 cannot say so. */
    struct fuse_open_out out = { .fh = (uint64_t)i,
        .open_flags = FOPEN_DIRECT_IO | FOPEN_NONSEEKABLE | FOPEN_STREAM | FOPEN_NOFLUSH };
    fuse_reply_buf(req, (char *)&out, sizeof out);
}

void close_instance(struct fuse_file_info *file) {
    struct instance *it = instance_of(file);
    trace("# close %u\n", it->id);
    int64_t reply = CALL(0, wt_inotify_close(&tree, it->id));
    if (reply != -EBADF) must(reply, "close");  /* a line of the script may have closed it */
    if (it->poller) fuse_pollhandle_destroy(it->poller);
    free(it->readers);
    *it = (struct instance){ 0 };
    instance_counts.open--;
}

/* ---- read and poll */

static bool add_reader(struct instance *it, struct reader reader) {
    if (it->reader_count == it->reader_capacity) {
        int capacity = it->reader_capacity ? it->reader_capacity * 2 : 4;
        struct reader *all = realloc(it->readers, (size_t)capacity * sizeof *all);
        if (!all) return false;
        it->readers = all;
        it->reader_capacity = capacity;
    }
    it->readers[it->reader_count++] = reader;
    return true;
}

static void drop_reader(struct instance *it, int i) {
    it->reader_count--;
    for (; i < it->reader_count; i++) it->readers[i] = it->readers[i + 1];
}

/* Takes the first record. Returns its length in bytes, or -EINVAL if that is more than `size`. */
static int64_t take_record(struct instance *it, char *out, size_t size) {
    enum { STEP = sizeof(struct inotify_event) };
    int64_t count = -EINVAL;
    for (size_t room = STEP; count == -EINVAL && room <= size; room += STEP)
        count = CALL(room, wt_read(&tree, it->id, out, room));
    return count;
}

/* Takes as many records as fit, at most `most`; 0 is no limit. */
static int64_t take_records(struct instance *it, size_t size, uint64_t most) {
    int64_t bytes = wt_bytes_waiting(&tree, it->id), taken = 0;
    if (!most || (uint64_t)waiting_in(it) <= most)
        return CALL(bytes < (int64_t)size ? (uint64_t)bytes : size, wt_read(&tree, it->id, buffer, size));
    for (uint64_t i = 0; i < most; i++) {
        int64_t count = take_record(it, buffer + taken, size - (size_t)taken);
        if (count < 0) return taken ? taken : count;
        taken += count;
    }
    return taken;
}

/* Answers a read, which is this request. If a schedule leaves records, they are as good as new ones, which come after it. */
static void answer_read(struct instance *it, fuse_req_t req, size_t size, uint64_t request) {
    if (size > sizeof buffer) size = sizeof buffer;
    int64_t before = waiting_in(it);
    uint64_t most = most_records(request);
    if (most && (int64_t)most < it->counted) most = (uint64_t)it->counted;     /* they are there, as the program knows */
    int64_t count = take_records(it, size, most);
    it->waiting = most ? 0 : waiting_in(it);    /* 0: a poll is woken again for those that are left */
    it->counted -= it->counted < before - waiting_in(it) ? it->counted : before - waiting_in(it);
    it->was_asked = false;
    work_count++;
    if (is_refused(req, count)) return;
    instance_counts.reads++;
    instance_counts.reads_after_line += lines_after_first_mark() > 0;
    if (waiting_in(it) && most && waiting_in(it) == before - (int64_t)most) record_short_read(request, most);
    trace_records(it->id, buffer, (size_t)count);
    fuse_reply_buf(req, buffer, (size_t)count);
}

static void on_interrupt(fuse_req_t req, void *data) {
    struct instance *it = data;
    for (int i = 0; i < it->reader_count; i++) {
        if (it->readers[i].req != req) continue;
        drop_reader(it, i);
        fuse_reply_err(req, EINTR);
        return;
    }
}

void read_instance(fuse_req_t req, size_t size, struct fuse_file_info *file) {
    struct instance *it = instance_of(file);
    if (!file->lock_owner) {                /* no read(2), but splice(2), or a page of mmap(2) or readahead(2) */
        fuse_reply_err(req, EINVAL);
        return;
    }
    if (waiting_in(it) > 0) {
        ask_instance("read", it->id);
        uint64_t request = run_lines_before_request();
        if (waiting_in(it) > 0) {
            answer_read(it, req, size, request);
            deliver();
            return;
        }
    }
    it->was_asked = true;
    if (file->flags & O_NONBLOCK) fuse_reply_err(req, EAGAIN);
    else if (!add_reader(it, (struct reader){ req, size })) fuse_reply_err(req, ENOMEM);
    else fuse_req_interrupt_func(req, on_interrupt, it);
}

void poll_instance(fuse_req_t req, struct fuse_file_info *file, struct fuse_pollhandle *handle) {
    struct instance *it = instance_of(file);
    if (handle) {
        if (it->poller) fuse_pollhandle_destroy(it->poller);
        it->poller = handle;
        it->was_polled = true;
    }
    bool is_ready = waiting_in(it) > 0;
    if (!is_ready) it->was_asked = true;
    fuse_reply_poll(req, is_ready ? POLLIN | POLLRDNORM : 0);
}

/* ---- the supervisor's calls */

/* The reply to a watch outside the mount. Programs report EACCES as a permission problem, so explain once. */
static int64_t watch_outside(struct instance *it) {
    static bool is_said;
    if (options.ignores_outside) return it->next_outside++;
    if (!is_said) say("a watch outside %s is refused by EACCES; --outside=ignore accepts it, and it never fires", options.dir);
    is_said = true;
    return -EACCES;
}

static int64_t add_watch(struct instance *it, const struct watch_call *call) {
    char path[PATH_SIZE] = "";
    struct wt_stat is;
    int64_t reply;
    if (!call->number) reply = watch_outside(it);
    else if (call->number == INSTANCE || !find_file(call->number, path, &is)) reply = -ENOENT;
    else reply = CALL(0, wt_inotify_add_watch(&tree, it->id, PATH(path), call->mask));
    char shown[3 * PATH_SIZE] = "";
    spell(path, shown);
    trace("# watch %u %s 0x%x: %lld\n", it->id, *shown ? shown : call->number ? "gone" : "outside", call->mask,
          (long long)reply);
    return reply;
}

static int64_t remove_watch(struct instance *it, int32_t wd) {
    int64_t reply = wd >= FIRST_OUTSIDE && wd < it->next_outside ? 0
                  : CALL(0, wt_inotify_rm_watch(&tree, it->id, wd));
    trace("# unwatch %u %d: %lld\n", it->id, wd, (long long)reply);
    return reply;
}

void call_instance(fuse_req_t req, unsigned command, struct fuse_file_info *file, const void *in, size_t in_size) {
    struct instance *it = instance_of(file);
    int64_t reply = -ENOTTY;
    if (command == CALL_BYTES) {
        reply = wt_bytes_waiting(&tree, it->id);
        it->counted = waiting_in(it);
    } else {
        work_count++;
        instance_counts.calls++;
    }
    if (command == CALL_WATCH && in_size == sizeof(struct watch_call)) {
        struct watch_call call;
        memcpy(&call, in, sizeof call);
        ask_file("inotify_add_watch", call.number);
        run_lines_before_request();
        reply = add_watch(it, &call);
    }
    if (command == CALL_UNWATCH && in_size == sizeof(int32_t)) {
        int32_t wd;
        memcpy(&wd, in, sizeof wd);
        ask_instance("inotify_rm_watch", it->id);
        run_lines_before_request();
        reply = remove_watch(it, wd);
    }
    if (is_refused(req, reply)) return;
    fuse_reply_ioctl(req, (int)reply, NULL, 0);
    deliver();
}

/* ---- who waits */

/* Answers the reads of an instance that wait. Lines that a schedule lets happen before one are delivered with the rest. */
static bool answer_readers(struct instance *it) {
    bool is_any = false;
    while (it->reader_count && waiting_in(it) > 0) {
        ask_instance("read", it->id);
        uint64_t request = run_lines_before_request();
        if (!it->reader_count) break;       /* it was interrupted during a turn */
        struct reader first = it->readers[0];
        drop_reader(it, 0);
        answer_read(it, first.req, first.size, request);
        it->waiting = 0;
        if (it->reader_count) it->was_asked = true;
        is_any = true;
    }
    return is_any;
}

static void wake_poller(struct instance *it) {
    int64_t waiting = waiting_in(it);
    bool has_more = waiting > it->waiting;
    it->waiting = waiting;
    if (has_more && it->poller) fuse_lowlevel_notify_poll(it->poller);
}

static bool is_delivering, is_held;

bool hold_deliveries(bool holds) {
    bool was_held = is_held;
    is_held = holds;
    return was_held;
}

void deliver(void) {
    if (is_delivering || is_held || !instance_counts.open) return;
    is_delivering = true;
    for (bool is_any = true; is_any;) {
        is_any = false;
        for (int i = 0; i < INSTANCES; i++) is_any |= instances[i].is_open && answer_readers(instances + i);
    }
    for (int i = 0; i < INSTANCES; i++) if (instances[i].is_open) wake_poller(instances + i);
    is_delivering = false;
}

struct asking who_asks(void) {
    struct asking all = { 0 };
    for (int i = 0; i < INSTANCES; i++) {
        struct instance *it = instances + i;
        if (!it->is_open) continue;
        bool is_empty = waiting_in(it) <= 0;
        all.in_vain |= is_empty && (it->was_asked || it->reader_count);
        all.polled |= is_empty && it->was_polled;
        all.unread |= !is_empty;
    }
    return all;
}
