/* The trace of a run, and what --out leaves. */
#ifndef TRACE_H
#define TRACE_H
#include "under.h"

void open_trace(void);
void close_trace(void);
bool is_traced(void);
__attribute__((format(printf, 1, 2))) void trace(const char *format, ...);
/* The records that a read took, a line each. */
void trace_records(uint32_t instance, const char *bytes, size_t size);

/* A path or a name as scripts spell it: each byte outside 0x21 to 0x7e, and %, as % and two digits. Three bytes for each, and
 * a zero byte. */
void spell(const char *name, char *out);

/* Makes DIR/listing, which has a line for each file of the tree, and DIR/tree, a copy. */
void write_tree(void);
#endif
