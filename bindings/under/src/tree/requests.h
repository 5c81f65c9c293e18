/* What the handlers of FUSE requests share. Each request is answered at once, but a read of an instance that waits. */
#ifndef REQUESTS_H
#define REQUESTS_H
#include "under.h"
#define FUSE_USE_VERSION 35
#include <fuse3/fuse_lowlevel.h>
#include <sys/ioctl.h>
#include <sys/stat.h>

/* The inode number of every inotify instance, and the name by which the supervisor opens a new one. */
enum { INSTANCE = 1 << 30 };
#define INSTANCE_NAME ".watchtree-inotify"

/* By this ioctl(2) of the root, with the number of a task, the supervisor of the second program asks for a turn of it. */
#define CALL_TURN _IOW('w', 4, int32_t)

extern const struct fuse_lowlevel_ops requests;

/* Counts the requests of the program, without those that ask for a record in vain. */
extern uint64_t work_count;

bool by_supervisor(fuse_req_t req);
/* Counts a request as work, unless the second program made it. */
void count_work(void);
/* The first step of a request: the program works, and by a seed lines of the script happen before it. A request of the second
 * program is none that a schedule counts. */
void begin(fuse_req_t req);
/* Answers with an error if the reply of the tree is one. */
bool is_refused(fuse_req_t req, int64_t reply);

/* refused.c */
/* Refuses a call on a file, or on a name in a directory, that would make what a tree cannot hold. */
void refuse(fuse_req_t req, const char *call, uint64_t number, const char *name, int error);
void on_symlink(fuse_req_t req, const char *target, fuse_ino_t parent, const char *name);
void on_setxattr(fuse_req_t req, fuse_ino_t number, const char *name, const char *value, size_t size, int flags);
void on_fallocate(fuse_req_t req, fuse_ino_t number, int mode, off_t offset, off_t length, struct fuse_file_info *file);

/* attributes.c */
bool attributes_of(uint64_t number, struct stat *out);
/* Answers a lookup. */
void reply_entry(fuse_req_t req, uint64_t number);
void on_lookup(fuse_req_t req, fuse_ino_t parent, const char *name);
void on_forget(fuse_req_t req, fuse_ino_t number, uint64_t count);
void on_forget_multi(fuse_req_t req, size_t count, struct fuse_forget_data *all);
void on_getattr(fuse_req_t req, fuse_ino_t number, struct fuse_file_info *file);
void on_setattr(fuse_req_t req, fuse_ino_t number, struct stat *wanted, int which, struct fuse_file_info *file);
void on_access(fuse_req_t req, fuse_ino_t number, int mask);
void on_statfs(fuse_req_t req, fuse_ino_t number);

/* names.c */
/* Makes a file and answers its number, or a negative errno. Its directory is notified of IN_CREATE alone. */
int64_t make_file(uint64_t parent, const char *name, const char *path, mode_t mode);
/* Makes the directory in which new files are made. */
void make_nursery(void);
void on_mknod(fuse_req_t req, fuse_ino_t parent, const char *name, mode_t mode, dev_t device);
void on_mkdir(fuse_req_t req, fuse_ino_t parent, const char *name, mode_t mode);
void on_unlink(fuse_req_t req, fuse_ino_t parent, const char *name);
void on_rmdir(fuse_req_t req, fuse_ino_t parent, const char *name);
void on_rename(fuse_req_t req, fuse_ino_t parent, const char *name, fuse_ino_t to_parent, const char *to_name,
               unsigned flags);
void on_link(fuse_req_t req, fuse_ino_t number, fuse_ino_t parent, const char *name);
void on_opendir(fuse_req_t req, fuse_ino_t number, struct fuse_file_info *file);
void on_readdir(fuse_req_t req, fuse_ino_t number, size_t size, off_t offset, struct fuse_file_info *file);
void on_releasedir(fuse_req_t req, fuse_ino_t number, struct fuse_file_info *file);

/* descriptors.c */
/* Whether the second program opened a file, by what the kernel knows it by. */
bool is_opened_by_second(uint64_t file);
void on_open(fuse_req_t req, fuse_ino_t number, struct fuse_file_info *file);
void on_create(fuse_req_t req, fuse_ino_t parent, const char *name, mode_t mode, struct fuse_file_info *file);
void on_read(fuse_req_t req, fuse_ino_t number, size_t size, off_t offset, struct fuse_file_info *file);
void on_write(fuse_req_t req, fuse_ino_t number, const char *bytes, size_t size, off_t offset,
              struct fuse_file_info *file);
void on_release(fuse_req_t req, fuse_ino_t number, struct fuse_file_info *file);
void on_fsync(fuse_req_t req, fuse_ino_t number, int datasync, struct fuse_file_info *file);
void on_poll(fuse_req_t req, fuse_ino_t number, struct fuse_file_info *file, struct fuse_pollhandle *handle);
void on_ioctl(fuse_req_t req, fuse_ino_t number, unsigned command, void *argument, struct fuse_file_info *file,
              unsigned flags, const void *in, size_t in_size, size_t out_size);
#endif
