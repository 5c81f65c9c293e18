/* The directory of `watchtree record --from`, which the tree has a copy of when the program starts. */
#ifndef FROM_H
#define FROM_H

/* Names what the tree cannot hold of it, which is a fault. */
void check_from(void);
/* Copies it in, by lines of a script. */
void copy_from(void);
#endif
