/* Requests that wait for their turn, in a run of two programs. Each is kept as it came from the mount. */
#include "tree/waiting.h"
#include "processes/program.h"
#include "tree/requests.h"
#include <errno.h>
#include <fcntl.h>
#include <linux/fuse.h>
#include <stdlib.h>
#include <sys/syscall.h>
#include <unistd.h>

struct request {
    struct request *next;
    enum side side;
    bool is_change;                 /* it changes the tree, or raises events */
    bool is_of_supervisor;          /* of the second program */
    bool is_call;                   /* by it a call waits that did not begin yet */
    struct descent descent;         /* of its task: none of a closed file, which is of no task */
    size_t size;
    union { struct fuse_in_header head; char bytes[1]; };
};

enum side served;
static struct request *all[SIDES];  /* those that wait, in the order in which they came */
static const struct request *answered;  /* the client's that is answered now */
static bool refuses;

/* ---- what a message is */

/* The words behind its head. */
static const void *arguments(const struct request *it) { return it->bytes + sizeof it->head; }

/* Nobody waits for an answer, and nothing changes by it. */
static bool is_note(uint32_t opcode) {
    switch (opcode) {
    case FUSE_FORGET: case FUSE_BATCH_FORGET: case FUSE_INTERRUPT: case FUSE_INIT: case FUSE_DESTROY: case FUSE_RELEASEDIR:
        return true;
    default: return false;
    }
}

static bool is_change(const struct request *it) {
    switch (it->head.opcode) {
    case FUSE_MKNOD: case FUSE_MKDIR: case FUSE_UNLINK: case FUSE_RMDIR: case FUSE_RENAME: case FUSE_RENAME2: case FUSE_LINK:
    case FUSE_CREATE: case FUSE_SETATTR: case FUSE_WRITE: case FUSE_FSYNC: case FUSE_RELEASE: return true;
    case FUSE_OPEN: return ((const struct fuse_open_in *)arguments(it))->flags & O_TRUNC;
    default: return false;
    }
}

/* Whose call waits, if one does. */
static void find_caller(struct request *it) {
    const struct fuse_ioctl_in *in = arguments(it);
    int32_t task;
    if (it->head.opcode != FUSE_IOCTL || in->cmd != CALL_TURN || in->in_size != sizeof task) return;
    memcpy(&task, in + 1, sizeof task);
    it->is_call = true;
    side_of(task, &it->descent);
}

/* A closed file is of the side that opened it, as the kernel names no task. */
static void find_side(struct request *it) {
    pid_t task = (pid_t)it->head.pid;
    it->descent.count = 0;
    it->is_of_supervisor = it->is_call = false;
    if (it->head.opcode == FUSE_RELEASE) {
        uint64_t file = ((const struct fuse_release_in *)arguments(it))->fh;
        it->side = it->head.nodeid != INSTANCE && is_opened_by_second(file) ? SECOND : CLIENT;
    } else if (task == second_supervisor_pid || syscall(SYS_tgkill, second_supervisor_pid, task, 0) == 0) {
        it->side = SECOND;
        it->is_of_supervisor = true;
        find_caller(it);
    } else it->side = side_of(task, &it->descent);
    it->is_change = is_change(it);
}

/* ---- answers */

static void answer(struct fuse_session *session, struct request *it) {
    enum side before = served;
    struct fuse_buf buffer = { .mem = it->bytes, .size = it->size };
    served = it->side;
    if (it->side == CLIENT) answered = it;
    fuse_session_process_buf(session, &buffer);
    if (it->side == CLIENT) answered = NULL;
    served = before;
    free(it);
}

/* A file that is closed is closed all the same, as nobody would do it later. */
static void refuse_one(struct fuse_session *session, struct request *it) {
    if (it->head.opcode == FUSE_RELEASE) {
        answer(session, it);
        return;
    }
    struct fuse_out_header out = { .len = sizeof out, .error = -EIO, .unique = it->head.unique };
    /* (where the kernel does not wait for it any more, nobody does) */
    if (write(fuse_session_fd(session), &out, sizeof out) < 0 && errno != ENOENT) fail("/dev/fuse");
    free(it);
}

static void append(struct request *it) {
    struct request **end = &all[it->side];
    while (*end) end = &(*end)->next;
    *end = it;
}

static struct request *take(struct request **at) {
    struct request *it = *at;
    *at = it->next;
    return it;
}

bool take_request(struct fuse_session *session) {
    static struct fuse_buf buffer;
    int count = fuse_session_receive_buf(session, &buffer);
    if (count == -EAGAIN || count == -EINTR) return false;
    if (count <= 0) fault("/dev/fuse: %s", count ? strerror(-count) : "the mount is gone");
    if (is_note(((struct fuse_in_header *)buffer.mem)->opcode)) {
        fuse_session_process_buf(session, &buffer);
        return true;
    }
    struct request *it = malloc(sizeof *it + (size_t)count);
    if (!it) fail("malloc");
    it->next = NULL;
    it->size = (size_t)count;
    memcpy(it->bytes, buffer.mem, it->size);
    find_side(it);
    if (refuses && it->side == SECOND) refuse_one(session, it);
    else append(it);
    return true;
}

bool client_has_lock(void) {
    if (!answered) return false;
    switch (answered->head.opcode) {
    case FUSE_LOOKUP: case FUSE_READDIR: case FUSE_READDIRPLUS: return true;
    default: return answered->is_change;
    }
}

bool client_waits(void) { return all[CLIENT]; }
bool second_waits(void) { return all[SECOND]; }

uint64_t supervised(void) {
    uint64_t count = 0;
    for (const struct request *it = all[SECOND]; it; it = it->next) count += it->is_of_supervisor;
    return count;
}

bool answer_client(struct fuse_session *session) {
    if (!all[CLIENT]) return false;
    answer(session, take(&all[CLIENT]));
    return true;
}

uint64_t answer_looks(struct fuse_session *session, uint64_t most) {
    uint64_t count = 0;
    for (struct request **at = &all[SECOND]; *at && count < most;) {
        if ((*at)->is_change || (*at)->is_call) at = &(*at)->next;
        else {
            answer(session, take(at));
            count++;
            at = &all[SECOND];      /* others may have come */
        }
    }
    return count;
}

static bool is_first(const struct request *one, const struct request *other) {
    return one->is_change != other->is_change ? one->is_change : is_before(&one->descent, &other->descent);
}

enum step answer_step(struct fuse_session *session) {
    struct request **first = NULL;
    for (struct request **at = &all[SECOND]; *at; at = &(*at)->next)
        if (((*at)->is_change || (*at)->is_call) && (!first || is_first(*at, *first))) first = at;
    if (!first) return NOTHING_WAITS;
    enum step step = (*first)->is_change ? TREE_CHANGED : CALL_BEGAN;
    answer(session, take(first));
    return step;
}

void refuse_waiting(struct fuse_session *session) {
    refuses = true;
    while (all[SECOND]) refuse_one(session, take(&all[SECOND]));
}
