/* What a run needs of the machine. If something is missing: one line that says how to get it, and STATUS_FAULT. */
#include "command/needs.h"
#include "processes/rest.h"
#include <errno.h>
#include <fcntl.h>
#include <linux/seccomp.h>
#include <stdio.h>
#include <sys/stat.h>
#include <sys/syscall.h>
#include <sys/sysmacros.h>
#include <sys/utsname.h>
#include <unistd.h>

static void check_kernel(void) {
    struct utsname it;
    unsigned major = 0, minor = 0;
    if (uname(&it) < 0 || sscanf(it.release, "%u.%u", &major, &minor) != 2) return;
    if (major > 5 || (major == 5 && minor >= 19)) return;
    fault("Linux %s is too old: seccomp's WAIT_KILLABLE_RECV needs Linux 5.19 or later", it.release);
}

static void check_fuse(void) {
    struct stat is;
    int fd = open("/dev/fuse", O_RDWR | O_CLOEXEC);
    if (fd >= 0) {
        bool is_fuse = fstat(fd, &is) == 0 && S_ISCHR(is.st_mode) && is.st_rdev == makedev(10, 229);
        close(fd);
        if (is_fuse) return;
        fault("/dev/fuse is another file: mknod /dev/fuse c 10 229 makes the device");
    }
    if (errno == ENOENT || errno == ENODEV || errno == ENXIO)
        fault("there is no FUSE: load it by `modprobe fuse`; in a container give it the device (docker run --device "
              "/dev/fuse)");
    fault("/dev/fuse cannot be opened (%s): make it readable and writable for this user (chmod 666 /dev/fuse), or give it "
          "to the container (docker run --device /dev/fuse)", strerror(errno));
}

static void check_seccomp(void) {
    uint32_t action = SECCOMP_RET_USER_NOTIF;
    if (syscall(SYS_seccomp, SECCOMP_GET_ACTION_AVAIL, 0, &action) == 0) return;
    fault("this kernel or container has no seccomp listener (%s): run on a kernel with CONFIG_SECCOMP_FILTER; in a container "
          "allow seccomp(2) (docker run --security-opt seccomp=unconfined)", strerror(errno));
}

static void check_proc(void) {
    if (access("/proc/self/task", R_OK) < 0) fault("/proc is not mounted: mount -t proc proc /proc");
    if (!can_tell_rest()) fault("/proc/PID/schedstat has no figures: the kernel needs CONFIG_SCHED_INFO");
}

void check_needs(void) {
    check_kernel();
    check_proc();
    check_fuse();
    check_seccomp();
}

void lack_namespace(int error) {
    const char *text = strerror(error);
    if (geteuid() == 0)
        fault("no mount namespace (%s): root lacks CAP_SYS_ADMIN here; in a container allow it (docker run --cap-add "
              "SYS_ADMIN --security-opt apparmor=unconfined)", text);
    if (error == ENOSPC || error == EUSERS) fault("no user namespace (%s): sysctl user.max_user_namespaces is too low", text);
    fault("no user namespace (%s): allow them (sysctl kernel.unprivileged_userns_clone=1, "
          "kernel.apparmor_restrict_unprivileged_userns=0; in a container --security-opt seccomp=unconfined), or run as root",
          text);
}

void lack_mount(const char *what, int error) {
    if (error == EPERM || error == EACCES)
        fault("%s: mounting is not allowed (%s): in a container docker run --cap-add SYS_ADMIN --security-opt "
              "apparmor=unconfined", what, strerror(error));
    if (error == ENODEV) fault("%s: the kernel has no such file system: load FUSE by `modprobe fuse`", what);
    fault("%s: cannot be mounted: %s", what, strerror(error));
}

void lack_filter(int error) {
    if (error == EBUSY)
        fault("another seccomp listener is in charge here (of a container, or an outer `watchtree under`), and there is "
              "one alone: run outside of it");
    if (error == EINVAL) fault("seccomp refuses WAIT_KILLABLE_RECV: Linux 5.19 or later is needed");
    fault("the filter cannot be installed (%s): in a container docker run --security-opt seccomp=unconfined",
          strerror(error));
}
