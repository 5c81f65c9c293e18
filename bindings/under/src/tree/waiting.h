/* Requests that wait for their turn. In a run of two programs the tree answers one program at a time: what the other one asks
 * waits here. */
#ifndef WAITING_H
#define WAITING_H
#include "processes/rest.h"
#define FUSE_USE_VERSION 35
#include <fuse3/fuse_lowlevel.h>

/* Whose request is answered now. */
extern enum side served;

/* Takes one request from the mount, which waits then. A message that nobody waits for is answered at once. False if there is
 * none. */
bool take_request(struct fuse_session *session);
/* Answers the first request of the client that waits. False if none does. */
bool answer_client(struct fuse_session *session);
/* Whether the kernel has a lock during the request of the client that is answered now: that of a directory which is listed or
 * changed, or in which it looks for a name, or that of a file which is written or synced or whose attributes change. The second
 * program could not use that directory, or that file, meanwhile. */
bool client_has_lock(void);
/* Whether the client has a request that waits, and whether the second program has. */
bool client_waits(void);
bool second_waits(void);
/* How many tasks of the second program wait as their supervisor has a request here. */
uint64_t supervised(void);
/* Answers the requests of the second program that wait and only look, at most `most` of them. How many there were. A call
 * that waits before it begins is none. */
uint64_t answer_looks(struct fuse_session *session, uint64_t most);
/* Answers one that changes the tree or raises events: first what was closed, then by the order of tasks. Without one, lets a
 * call begin, by the same order. */
enum step { NOTHING_WAITS, CALL_BEGAN, TREE_CHANGED };
enum step answer_step(struct fuse_session *session);
/* From now on requests of the second program are refused, those that wait too. */
void refuse_waiting(struct fuse_session *session);
#endif
