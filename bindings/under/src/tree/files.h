/* The bytes of files. What a program writes is kept apart from the tree, and reaches it at a few moments:
 *   announce: the length reaches the tree, and IN_MODIFY is raised: at fsync(2), when somebody else looks at the file,
 *             and when the program comes to rest
 *   commit:   the bytes reach the tree, which raises IN_OPEN, IN_MODIFY, IN_CLOSE_WRITE: when a descriptor is closed that
 *             may write, and when a line of the script is about to read or write the file
 * A file that loses its last name while somebody has it keeps its bytes here. */
#ifndef FILES_H
#define FILES_H
#include "tree/nodes.h"

/* The longest file of a tree. */
enum { LONGEST_FILE = 1 << 24 };

/* The length of a file, with bytes that were written and are not in the tree yet. */
uint64_t length_of(uint64_t number);
/* Each answers a count of bytes, 0, or a negative errno. */
int64_t read_file(uint64_t number, char *out, size_t size, uint64_t offset);
int64_t write_file(uint64_t number, const char *bytes, size_t size, uint64_t offset, pid_t writer);
int64_t resize_file(uint64_t number, uint64_t length);
/* O_TRUNC of a descriptor that may write. */
int64_t empty_file(uint64_t number, pid_t writer);

void announce(uint64_t number);
void announce_all(void);
void commit(uint64_t number);
void commit_all(void);
/* The process whose writes are not announced yet, or 0. */
pid_t silent_writer(uint64_t number);

/* Called before and after a file loses the name at a path. If that is its last one and the file is open, its bytes are
 * kept. `lost` says whether it lost the name. */
struct rescue { uint64_t number; struct content *content; };
struct rescue before_loss(const char *path);
void after_loss(struct rescue *rescue, bool lost);

void drop_content(struct node *node);
#endif
