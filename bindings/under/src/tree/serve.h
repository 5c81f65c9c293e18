/* Answers the requests of the mount. */
#ifndef SERVE_H
#define SERVE_H
#include "tree/waiting.h"
#include "under.h"
struct fuse_session;

/* What the others below answer. */
void serve_session(struct fuse_session *it);
/* With two programs it takes requests of both, and answers those of the client; the second one has turns (second.h). */
/* Answers all requests that are there. */
void serve_all(void);
/* The same, and those that come soon after. */
void serve_burst(void);

/* ---- two programs */

/* Takes what is there, and answers nothing but notes. Whether there was anything. */
bool take_all(void);
/* Whether the client has a request that is taken and not answered. */
bool client_is_kept(void);
/* waiting.h has these, of the session. */
uint64_t serve_looks(uint64_t most);
enum step serve_step(void);
void refuse_second(void);
/* Waits until a request comes, for at most `wait_us` microseconds. */
void await_request(int64_t wait_us);
#endif
