/* What the program asks, for the trace of a run with a schedule: a line `? R CALL PATH` for each request. */
#ifndef ASKED_H
#define ASKED_H
#include "tree/requests.h"

/* In a run with a schedule, and in one of two programs, makes each handler first note what is asked. */
void trace_handlers(struct fuse_lowlevel_ops *handlers);

/* Each notes what is asked next: a call, one on a file, or one on an instance. */
void ask(const char *call);
void ask_file(const char *call, uint64_t number);
void ask_instance(const char *call, uint32_t instance);
/* Traces what was asked, as the request of this number. */
void trace_asked(uint64_t request);
/* Traces the change that the second program made. */
void trace_second(void);
#endif
