/* watchtree for programs with threads: one tree that several threads share, reads that wait, and descriptors for event
 * loops.
 *
 * wtt_X takes the tree's lock, makes the call wt_X of watchtree.h, and returns what that returns. Any thread may make
 * any call at any time but wtt_close. No call may be made from a signal handler.
 *
 * In a child of fork(2) the tree is not open: each call returns -EBADF, and wtt_close frees nothing of the parent's.
 *
 * wtt_read is a cancellation point while it waits; a thread that is cancelled there holds no lock and takes no record.
 * No other call is a cancellation point. Asynchronous cancellation is not supported.
 */
#ifndef WATCHTREE_THREADS_H
#define WATCHTREE_THREADS_H
#include "watchtree.h"
#ifdef __cplusplus
extern "C" {
#endif

struct wtt;

/* Opens a tree and stores it in *tree. 0, -ENOMEM, or the errno of mmap(2) or madvise(2) (MADV_WIPEONFORK, Linux 4.14);
 * *tree is then NULL. */
int64_t wtt_open(struct wtt **tree);
/* Opens a tree as wt_fork does and stores it in *fork: an independent tree, with a lock of its own, that answers from now
 * on exactly as tree does. Calls of other threads on tree wait only while it is copied. Neither threads that wait nor
 * descriptors are copied: wtt_fd makes a descriptor of an instance of the fork. 0, -EBADF if tree is not open, or the
 * errors of wtt_open; *fork is then NULL. It has nothing to do with fork(2). fork may point to the variable that has
 * tree: it is lost there, so keep it elsewhere to end it. */
int64_t wtt_fork(struct wtt *tree, struct wtt **fork);
/* Ends a tree and its instances, and frees their memory. Every call returns -EBADF from then on, also one that waits in
 * another thread. */
void wtt_shutdown(struct wtt *tree);
/* Frees a tree, which may be NULL, and ends it first if it is open. Threads that wait in wtt_read return -EBADF before
 * that. No other thread may begin a call at the same time or later: wtt_shutdown, then join the threads, then
 * wtt_close. */
void wtt_close(struct wtt *tree);

/* Reads records as wt_read. If none waits, it waits for one for at most `milliseconds`, without limit if negative, not
 * at all if 0. -EAGAIN if there is still none; this adds no entry to the journal. -EBADF if the instance is closed,
 * also by another thread in the meantime. -ENOMEM if it cannot wait. Signals do not end the wait. Several threads may
 * read one instance; each record goes to one of them. */
int64_t wtt_read(struct wtt *tree, uint32_t instance, void *out, size_t out_len, int milliseconds);

/* Returns a new descriptor that poll(2), select(2) and epoll(7) report as readable exactly while records of the
 * instance wait. It is only for waiting: wtt_read reads the records, and reading or writing the descriptor itself makes
 * it wrong. With EPOLLET there is an edge when the first record joins an empty queue, and one when a read leaves
 * records behind.
 * The caller owns the descriptor and closes it with close(2). When the instance or the tree is closed it becomes
 * readable for good, so that a loop wakes up and wtt_read returns -EBADF. It is closed on execve(2).
 * -EBADF, -EMFILE, -ENFILE, -ENOMEM. */
int64_t wtt_fd(struct wtt *tree, uint32_t instance);

/* The text of the last wtt_line, if the calling thread made it; -ESTALE if another thread has made one since. */
int64_t wtt_text(struct wtt *tree, void *out, size_t out_len);

/* The calls of watchtree.h. */
int64_t wtt_cut(struct wtt *tree);
int64_t wtt_mkdir(struct wtt *tree, const char *path, size_t path_len, uint32_t mode);
int64_t wtt_create(struct wtt *tree, const char *path, size_t path_len, uint32_t mode);
int64_t wtt_write(struct wtt *tree, const char *path, size_t path_len, uint64_t offset, const void *bytes,
                  size_t bytes_len);
int64_t wtt_pread(struct wtt *tree, const char *path, size_t path_len, uint64_t offset, void *out, size_t out_len);
int64_t wtt_truncate(struct wtt *tree, const char *path, size_t path_len, uint64_t len);
int64_t wtt_chmod(struct wtt *tree, const char *path, size_t path_len, uint32_t mode);
int64_t wtt_link(struct wtt *tree, const char *old, size_t old_len, const char *to, size_t to_len);
int64_t wtt_unlink(struct wtt *tree, const char *path, size_t path_len);
int64_t wtt_rmdir(struct wtt *tree, const char *path, size_t path_len);
int64_t wtt_rename(struct wtt *tree, const char *old, size_t old_len, const char *to, size_t to_len);
int64_t wtt_rename2(struct wtt *tree, const char *old, size_t old_len, const char *to, size_t to_len, uint32_t flags);
int64_t wtt_stat(struct wtt *tree, const char *path, size_t path_len, struct wt_stat *out);
int64_t wtt_list(struct wtt *tree, const char *path, size_t path_len, void *out, size_t out_len);
int64_t wtt_inotify_init(struct wtt *tree, uint32_t limit);
int64_t wtt_inotify_add_watch(struct wtt *tree, uint32_t instance, const char *path, size_t path_len, uint32_t mask);
int64_t wtt_inotify_rm_watch(struct wtt *tree, uint32_t instance, int32_t wd);
int64_t wtt_waiting(struct wtt *tree, uint32_t instance);
int64_t wtt_inotify_close(struct wtt *tree, uint32_t instance);
int64_t wtt_bytes_waiting(struct wtt *tree, uint32_t instance);
int64_t wtt_ready(struct wtt *tree, uint32_t *out, size_t out_len);
int64_t wtt_peek_stat(struct wtt *tree, const char *path, size_t path_len, struct wt_stat *out);
int64_t wtt_peek_list(struct wtt *tree, const char *path, size_t path_len, void *out, size_t out_len);
int64_t wtt_peek_pread(struct wtt *tree, const char *path, size_t path_len, uint64_t offset, void *out, size_t out_len);
int64_t wtt_path_of(struct wtt *tree, uint64_t number, void *out, size_t out_len);
int64_t wtt_first_place(struct wtt *tree);
int64_t wtt_last_place(struct wtt *tree);
int64_t wtt_entry(struct wtt *tree, uint64_t place, void *out, size_t out_len);
int64_t wtt_line(struct wtt *tree, uint32_t queue, const char *line, size_t line_len, void *out, size_t out_len);

#ifdef __cplusplus
}
#endif
#endif
