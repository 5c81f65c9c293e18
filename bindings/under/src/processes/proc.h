/* Reads /proc, which is opened before the program starts: a program of root can unmount it. */
#ifndef PROC_H
#define PROC_H
#include "under.h"
#include <dirent.h>

/* Each process opens it for itself. */
void open_proc(void);
/* The names in it, from the first. */
DIR *proc_from_start(void);
/* Reads the start of a file in it, and ends it with a zero byte. False if there is nothing. */
bool read_proc_file(const char *name, char *out, size_t size);
/* A folder in it: NULL if there is none. */
DIR *open_proc_folder(const char *name);
/* Where a link in it leads, with a zero byte at the end. False if there is none. */
bool read_proc_link(const char *name, char *out, size_t size);
#endif
