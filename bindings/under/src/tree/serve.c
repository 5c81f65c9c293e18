/* Answers the requests of the mount. */
#include "tree/serve.h"
#include "command/options.h"
#include "tree/requests.h"
#include "tree/waiting.h"
#include <errno.h>
#include <poll.h>
#include <sched.h>
#include <stdlib.h>

static struct fuse_session *session;

void serve_session(struct fuse_session *it) { session = it; }

static bool serve_one(void) {
    static struct fuse_buf buffer;
    if (options.second) return answer_client(session) || take_request(session);
    int count = fuse_session_receive_buf(session, &buffer);
    if (count == -EAGAIN || count == -EINTR) return false;
    if (count <= 0) fault("/dev/fuse: %s", count ? strerror(-count) : "the mount is gone");
    fuse_session_process_buf(session, &buffer);
    return true;
}

void serve_all(void) {
    while (serve_one()) {}
}

bool take_all(void) {
    bool is_any = false;
    while (take_request(session)) is_any = true;
    return is_any;
}

bool client_is_kept(void) { return client_waits(); }
uint64_t serve_looks(uint64_t most) { return answer_looks(session, most); }
enum step serve_step(void) { return answer_step(session); }
void refuse_second(void) { refuse_waiting(session); }

void await_request(int64_t wait_us) {
    struct timespec limit = { .tv_sec = wait_us / 1000000, .tv_nsec = wait_us % 1000000 * 1000 };
    struct pollfd one = { fuse_session_fd(session), POLLIN, 0 };
    if (ppoll(&one, 1, &limit, NULL) < 0 && errno != EINTR) fail("poll");
}

/* Whether another processor is likely to have nothing to do. */
static bool has_idle_processor(void) {
    static int64_t asked_at;
    static bool is_idle;
    cpu_set_t set;
    double load;
    if (asked_at && clock_ms() - asked_at < 1000) return is_idle;
    asked_at = clock_ms();
    int count = sched_getaffinity(0, sizeof set, &set) < 0 ? 1 : CPU_COUNT(&set);
    return is_idle = count > 1 && getloadavg(&load, 1) == 1 && load < count;
}

/* The program often sends its next request at once. If it runs on another CPU, polling a little longer costs less than
 * sleeping and being woken; if on this one, the yield lets it run. */
void serve_burst(void) {
    enum { BURST_NS = 40000, MOST_REQUESTS = 256 };
    struct timespec start, now;
    int count = 0;
    while (count < MOST_REQUESTS && serve_one()) count++;
    if (!has_idle_processor()) return;
    clock_gettime(CLOCK_MONOTONIC, &start);
    while (count < MOST_REQUESTS) {
        sched_yield();
        clock_gettime(CLOCK_MONOTONIC, &now);
        if (serve_one()) {
            start = now;
            count++;
        } else if ((now.tv_sec - start.tv_sec) * 1000000000 + now.tv_nsec - start.tv_nsec >= BURST_NS) break;
    }
}
