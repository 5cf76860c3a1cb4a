/* read and write as a bad day gives them: preloaded in front of the program `job`, they fail or move a part, as the variable FAULTS says. A word
   of it is r or w, then what its calls do one after the other, the last for ever: i (EINTR), a (EAGAIN), e (EIO), 0 (nothing moved), 1 (one byte),
   g (the real call). "r:aig w:1" lets the first read say EAGAIN, the second EINTR, all others work, and every write take one byte. Standard error
   is left alone. */
#define _GNU_SOURCE
#include <dlfcn.h>
#include <errno.h>
#include <stdlib.h>
#include <string.h>
#include <sys/types.h>

static const char *plan[2];

static char next(int writes) {
    static int begun;
    if (!begun) {
        begun = 1;
        const char *faults = getenv("FAULTS");
        const char *r = faults ? strstr(faults, "r:") : NULL, *w = faults ? strstr(faults, "w:") : NULL;
        plan[0] = r ? r + 2 : "g";
        plan[1] = w ? w + 2 : "g";
    }
    char now = *plan[writes];
    char after = plan[writes][1];
    if (after != '\0' && after != ' ') plan[writes]++;
    return now;
}

static int fails(char what) {
    errno = what == 'i' ? EINTR : what == 'a' ? EAGAIN : EIO;
    return what == 'i' || what == 'a' || what == 'e';
}

ssize_t read(int fd, void *buf, size_t n) {
    ssize_t (*real)(int, void *, size_t) = (ssize_t (*)(int, void *, size_t))dlsym(RTLD_NEXT, "read");
    char what = fd == 0 ? next(0) : 'g';
    if (fails(what)) return -1;
    return real(fd, buf, what == '1' && n > 1 ? 1 : n);
}

ssize_t write(int fd, const void *buf, size_t n) {
    ssize_t (*real)(int, const void *, size_t) = (ssize_t (*)(int, const void *, size_t))dlsym(RTLD_NEXT, "write");
    char what = fd == 1 ? next(1) : 'g';
    if (fails(what)) return -1;
    if (what == '0') return 0;
    return real(fd, buf, what == '1' && n > 1 ? 1 : n);
}
