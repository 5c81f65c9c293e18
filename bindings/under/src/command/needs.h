/* What a run needs of the machine, and how to get what is missing. */
#ifndef NEEDS_H
#define NEEDS_H
#include "under.h"

/* Checks what can be checked before a run, and exits with one line if something is missing. */
void check_needs(void);
/* Each explains why a step failed, by errno, and exits. */
_Noreturn void lack_namespace(int error);
_Noreturn void lack_mount(const char *what, int error);
_Noreturn void lack_filter(int error);
#endif
