/* watchtree: a file tree in memory with inotify(7).
 *
 * Each call returns what the system call of its name returns, with a negative errno in place of -1 and errno; numbers
 * from 1001 on are this library's own. A call on a tree that is not open returns -EBADF.
 * A path is absolute, and is given as a pointer and a length in bytes; it need not end with a zero byte.
 * A struct wt_tree begins as zero bytes, is changed only by these functions, and is never copied while it is open:
 * wt_fork makes a second tree.
 * The caller passes valid pointers, and to wt_fork two different structs (it returns -EBUSY for the same open tree twice,
 * and changes nothing). No buffer overlaps a struct wt_tree, and none that a call writes overlaps another buffer of the
 * call. Buffers that a call only reads may overlap, or be the same.
 * Only one thread may use a tree at a time; it may move between threads. watchtree_threads.h is for threads that share
 * one.
 */
#ifndef WATCHTREE_H
#define WATCHTREE_H
#include <stdbool.h>
#include <stddef.h>
#include <stdint.h>
#ifdef __cplusplus
extern "C" {
#endif

struct wt_tree { void *at; bool ready; };
#define WT_TREE_INIT { 0, false }

/* The default limit of a queue in records, as fs.inotify.max_queued_events of Linux. */
#define WT_QUEUE 16384

struct wt_stat { uint64_t links; uint64_t size; uint32_t number; uint32_t mode; uint32_t is_directory; };

/* What a call returns, negated, besides the errnos of its system call. */
enum {
    WT_JOURNAL_FULL = 1001,   /* 1,000,000 calls since the last wt_cut, or since the tree was opened */
    WT_COOKIES_SPENT = 1004,  /* no cookie is left for a rename */
    WT_NUMBERS_SPENT = 1007,  /* no number is left for a file */
    /* Faults of a line of wt_line, which then does nothing. */
    WT_BAD_BYTE = 1101, WT_UNKNOWN_COMMAND, WT_WRONG_NUMBER, WT_BAD_ESCAPE,
    WT_BAD_MODE, WT_BAD_HEX, WT_BAD_MASK, WT_BAD_NUMBER
};

/* Opens a tree that has only the root. 0, -EBUSY if it is open, -ENOMEM. */
int64_t wt_open(struct wt_tree *tree);
/* Closes a tree, and frees its memory. A tree that is not open stays so. */
void wt_close(struct wt_tree *tree);
/* Opens *fork as an independent tree with the same files, instances, watches and waiting records, the same last sequence
 * number, and an empty journal: it answers from now on exactly as tree does. 0; -EBADF if tree is not open, -EBUSY if
 * fork is open, -ENOMEM. After an error fork is unchanged. It is not a call of the tree. */
int64_t wt_fork(struct wt_tree *tree, struct wt_tree *fork);
/* Cuts the journal of calls, which can then take 1,000,000 more, and returns the sequence number of the last call. */
int64_t wt_cut(struct wt_tree *tree);

/* Return the number of the new directory or file. A file is made as by open(2) with O_CREAT | O_EXCL, then close(2). */
int64_t wt_mkdir(struct wt_tree *tree, const char *path, size_t path_len, uint32_t mode);
int64_t wt_create(struct wt_tree *tree, const char *path, size_t path_len, uint32_t mode);
/* Return how many bytes were written or read, as pwrite(2) and pread(2) between open(2) and close(2). */
int64_t wt_write(struct wt_tree *tree, const char *path, size_t path_len, uint64_t offset, const void *bytes,
                 size_t bytes_len);
int64_t wt_pread(struct wt_tree *tree, const char *path, size_t path_len, uint64_t offset, void *out,
                 size_t out_len);
int64_t wt_truncate(struct wt_tree *tree, const char *path, size_t path_len, uint64_t len);
int64_t wt_chmod(struct wt_tree *tree, const char *path, size_t path_len, uint32_t mode);
int64_t wt_link(struct wt_tree *tree, const char *old, size_t old_len, const char *to, size_t to_len);
int64_t wt_unlink(struct wt_tree *tree, const char *path, size_t path_len);
int64_t wt_rmdir(struct wt_tree *tree, const char *path, size_t path_len);
int64_t wt_rename(struct wt_tree *tree, const char *old, size_t old_len, const char *to, size_t to_len);
/* As renameat2(2): flags are 0, RENAME_NOREPLACE (1) or RENAME_EXCHANGE (2). */
int64_t wt_rename2(struct wt_tree *tree, const char *old, size_t old_len, const char *to, size_t to_len, uint32_t flags);
int64_t wt_stat(struct wt_tree *tree, const char *path, size_t path_len, struct wt_stat *out);
/* The names in a directory in the order of their bytes, each with a final zero byte, truncated to out_len bytes.
 * Returns the length of all names in bytes: if it is more than out_len, call again with a buffer of that length. */
int64_t wt_list(struct wt_tree *tree, const char *path, size_t path_len, void *out, size_t out_len);

/* Returns the number of a new instance, whose queue holds at most limit records, 1 to 65,535. */
int64_t wt_inotify_init(struct wt_tree *tree, uint32_t limit);
int64_t wt_inotify_add_watch(struct wt_tree *tree, uint32_t instance, const char *path, size_t path_len, uint32_t mask);
int64_t wt_inotify_rm_watch(struct wt_tree *tree, uint32_t instance, int32_t wd);
/* Reads what read(2) on a non-blocking inotify descriptor reads: as many whole records as fit. -EAGAIN if none waits;
 * -EINVAL if the buffer is too small for the first record, which stays queued: a short buffer never loses a record. */
int64_t wt_read(struct wt_tree *tree, uint32_t instance, void *out, size_t out_len);
/* Returns how many records wait. It is not a call of the tree, and has no entry in the journal. */
int64_t wt_waiting(struct wt_tree *tree, uint32_t instance);
int64_t wt_inotify_close(struct wt_tree *tree, uint32_t instance);

/* From here to wt_entry: not calls of the tree. They have no entry in the journal, and raise no event. */
/* Returns the length of all waiting records in bytes, as ioctl(2) with FIONREAD on an inotify descriptor. */
int64_t wt_bytes_waiting(struct wt_tree *tree, uint32_t instance);
/* The numbers of the open instances that have a record waiting, in ascending order, as many as fit: out_len counts
 * numbers, not bytes. Returns how many instances there are. */
int64_t wt_ready(struct wt_tree *tree, uint32_t *out, size_t out_len);
/* Return what wt_stat, wt_list and wt_pread would return. */
int64_t wt_peek_stat(struct wt_tree *tree, const char *path, size_t path_len, struct wt_stat *out);
int64_t wt_peek_list(struct wt_tree *tree, const char *path, size_t path_len, void *out, size_t out_len);
int64_t wt_peek_pread(struct wt_tree *tree, const char *path, size_t path_len, uint64_t offset, void *out,
                      size_t out_len);
/* The first path, in the order of names, of the file with this number (wt_stat's), truncated to out_len bytes. Returns
 * the length of the path in bytes, and -ENOENT if no file has this number. It looks at each path of the tree. */
int64_t wt_path_of(struct wt_tree *tree, uint64_t number, void *out, size_t out_len);
/* Return the sequence numbers of the journal's first entry, which follows that of the last call before the last wt_cut,
 * and of its last call. The journal is empty if the first is greater. */
int64_t wt_first_place(struct wt_tree *tree);
int64_t wt_last_place(struct wt_tree *tree);
/* The journal's entry with a sequence number as text, truncated to out_len bytes: the line of a script that makes the
 * call, and its reply in lines that begin with "# ". A call that no line can make, since its mode has more than six
 * octal digits, is a comment; such a call was refused. Returns the length of the text in bytes. -ENOENT if the journal
 * has no such entry, -ENOMEM. */
int64_t wt_entry(struct wt_tree *tree, uint64_t place, void *out, size_t out_len);

/* Runs a line of a script, such as `mkdir /d 755`, and stores its text, truncated to out_len bytes. Returns the length
 * of the text in bytes: if it is more than out_len, wt_text returns the text again. queue is the limit of an instance
 * that names none. */
int64_t wt_line(struct wt_tree *tree, uint32_t queue, const char *line, size_t line_len, void *out, size_t out_len);
/* The text of the last line, which the tree keeps until the next line. Truncates and returns as wt_line. */
int64_t wt_text(struct wt_tree *tree, void *out, size_t out_len);

/* The version of the library, such as "1.0.0", truncated to out_len bytes. Returns its length in bytes. */
int64_t wt_version(void *out, size_t out_len);
/* What a negative number means, such as "ENOENT: No such file or directory", truncated to out_len bytes. Returns the
 * length of the text in bytes, and -EINVAL if the number is not one that this library returns. */
int64_t wt_error_text(int64_t number, void *out, size_t out_len);

#ifdef __cplusplus
}
#endif
#endif
