/* The trace: what happened, in order, to standard error (--trace) and to a file (--out). */
#include "output/trace.h"
#include "command/options.h"
#include "output/out.h"
#include <stdarg.h>
#include <sys/inotify.h>

static FILE *file;

void open_trace(void) {
    if (!options.out) return;
    file = make_out_stream(OUT_TRACE);
    setvbuf(file, NULL, _IOLBF, 0);
}

void close_trace(void) {
    if (file && (ferror(file) || fclose(file))) fault("%s/trace was not written", options.out);
    file = NULL;
}

bool is_traced(void) { return file || options.traces; }

void trace(const char *format, ...) {
    va_list list;
    if (file) {
        va_start(list, format);
        vfprintf(file, format, list);
        va_end(list);
    }
    if (options.traces) {
        va_start(list, format);
        vfprintf(stderr, format, list);
        va_end(list);
    }
}

void spell(const char *name, char *out) {
    static const char digits[] = "0123456789abcdef";
    for (; *name; name++) {
        unsigned char byte = (unsigned char)*name;
        if (byte > 0x20 && byte < 0x7f && byte != '%') *out++ = (char)byte;
        else {
            *out++ = '%';
            *out++ = digits[byte >> 4];
            *out++ = digits[byte & 15];
        }
    }
    *out = 0;
}

void trace_records(uint32_t instance, const char *bytes, size_t size) {
    static const char *const names[] = { "ACCESS", "MODIFY", "ATTRIB", "CLOSE_WRITE", "CLOSE_NOWRITE", "OPEN",
        "MOVED_FROM", "MOVED_TO", "CREATE", "DELETE", "DELETE_SELF", "MOVE_SELF", "", "UNMOUNT", "Q_OVERFLOW", "IGNORED" };
    if (!is_traced()) return;
    for (const char *at = bytes; at < bytes + size;) {
        struct inotify_event event;
        char line[1200], name[800];
        int length = 0;
        memcpy(&event, at, sizeof event);
        for (int i = 0; i < 16; i++) {
            if (event.mask >> i & 1) length += snprintf(line + length, sizeof line - (size_t)length, " %s", names[i]);
        }
        if (event.mask & IN_ISDIR) length += snprintf(line + length, sizeof line - (size_t)length, " ISDIR");
        if (event.cookie)
            length += snprintf(line + length, sizeof line - (size_t)length, " cookie %u", event.cookie);
        if (event.len) {
            spell(at + sizeof event, name);
            snprintf(line + length, sizeof line - (size_t)length, " name %s", name);
        }
        trace("< %u wd %d%s\n", instance, event.wd, line);
        at += sizeof event + event.len;
    }
}
