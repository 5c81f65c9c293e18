/* The mount, which only this tool and what it starts can see. */
#ifndef MOUNT_H
#define MOUNT_H
struct fuse_session;

/* Enters namespaces of its own and mounts the tree. `here` remains the working directory. */
struct fuse_session *mount_tree(const char *here);
void unmount_tree(struct fuse_session *session);
#endif
