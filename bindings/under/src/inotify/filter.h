/* The filter of the program's system calls. */
#ifndef FILTER_H
#define FILTER_H

#include <stdbool.h>

/* Installs it for this process and all that it starts. The descriptor of its listener, or -1 and errno. */
int install_filter(bool is_of_second);
/* Whether a call of the second program waits for a turn before it begins: it locks a directory, which the client could not
 * list while the call waits in it. */
bool waits_for_turn(int call);
/* A descriptor goes over a socket. */
void send_fd(int to, int fd);
int take_fd(int from);
#endif
