/* Faults by a plan: a library to preload into the program, whose calls of read on descriptor 0 and of write on descriptor 1 then
 * meet what the plan says. See tests/faults, which builds and uses it:
 *
 *     gcc -shared -fPIC -O2 tests/faults.c -o faults.so -ldl
 *     FAULTS='read:3:EIO' FAULTS_LOG=calls LD_PRELOAD=./faults.so ./stonefruitle < moves
 *
 * The plan is a list of items CALL:WHEN:WHAT, with spaces between; the first one that applies to a call decides.
 *
 *     CALL   read or write
 *     WHEN   3 (the third call), 3-5 (the third to the fifth), 3+ (the third and all later ones), /3 (each third call)
 *     WHAT   the name of an error, as EINTR; 0, for a call that moves nothing; or max7, for one that moves at most 7 bytes
 *
 * FAULTS_NONBLOCKING=01 makes the named descriptors non-blocking before the program begins. FAULTS_LOG is given a line for each call:
 * the call, the bytes asked for, and the bytes moved or the error's name. */
#define _GNU_SOURCE
#include <dlfcn.h>
#include <errno.h>
#include <fcntl.h>
#include <stdio.h>
#include <stdlib.h>
#include <string.h>
#include <unistd.h>

static const char *plan = "";
static int calls_log = -1;
static int active;

/* Only the program meets the faults, and not the shell and the tools that its wrapper runs. */
__attribute__((constructor)) static void begin(void) {
    const char *set;
    active = strcmp(program_invocation_short_name, "stonefruitle") == 0;
    if (!active)
        return;
    if ((set = getenv("FAULTS")))
        plan = set;
    if ((set = getenv("FAULTS_LOG")))
        calls_log = open(set, O_WRONLY | O_CREAT | O_APPEND | O_CLOEXEC, 0666);
    for (set = getenv("FAULTS_NONBLOCKING"); set && *set; set++)
        fcntl(*set - '0', F_SETFL, fcntl(*set - '0', F_GETFL) | O_NONBLOCK);
}

static int error_number(const char *name) {
    for (int error = 1; error < 200; error++) {
        const char *known = strerrorname_np(error);
        if (known && strcmp(known, name) == 0)
            return error;
    }
    dprintf(2, "faults: the plan names %s, which is no error\n", name);
    abort();
}

/* What the plan says of the call'th call of the kind: 1 and the words in what, or 0. */
static int planned(const char *kind, unsigned long call, char what[32]) {
    char copy[1024], *rest = copy, *item;
    snprintf(copy, sizeof copy, "%s", plan);
    while ((item = strsep(&rest, " "))) {
        char name[8], when[24];
        if (sscanf(item, "%7[a-z]:%23[0-9+/-]:%31s", name, when, what) != 3) {
            dprintf(2, "faults: no item of a plan: %s\n", item);
            abort();
        }
        if (strcmp(name, kind) != 0)
            continue;
        char *end = when;
        unsigned long first = strtoul(when, &end, 10);
        unsigned long last = *end == '+' ? call : *end == '-' ? strtoul(end + 1, NULL, 10) : first;
        if (*when == '/' ? call % strtoul(when + 1, NULL, 10) == 0 : first <= call && call <= last)
            return 1;
    }
    return 0;
}

typedef ssize_t (*move)(int, void *, size_t);

static ssize_t meet(const char *kind, unsigned long call, move real, int fd, void *bytes, size_t count) {
    char what[32];
    size_t most = count;
    ssize_t moved;
    if (!*plan || !planned(kind, call, what)) {
        moved = real(fd, bytes, count);
    } else if (strcmp(what, "0") == 0) {
        errno = 0;
        moved = 0;
    } else if (sscanf(what, "max%zu", &most) == 1) {
        moved = real(fd, bytes, most < count ? most : count);
    } else {
        errno = error_number(what);
        moved = -1;
    }
    int error = errno;
    if (calls_log >= 0 && moved < 0)
        dprintf(calls_log, "%s %zu %s\n", kind, count, strerrorname_np(error));
    else if (calls_log >= 0)
        dprintf(calls_log, "%s %zu %zd\n", kind, count, moved);
    errno = error;
    return moved;
}

ssize_t read(int fd, void *bytes, size_t count) {
    static move real;
    static unsigned long calls;
    if (!real)
        real = (move)dlsym(RTLD_NEXT, "read");
    if (!active || fd != 0)
        return real(fd, bytes, count);
    return meet("read", ++calls, real, fd, bytes, count);
}

ssize_t write(int fd, const void *bytes, size_t count) {
    static move real;
    static unsigned long calls;
    if (!real)
        real = (move)dlsym(RTLD_NEXT, "write");
    if (!active || fd != 1)
        return real(fd, (void *)bytes, count);
    return meet("write", ++calls, real, fd, (void *)bytes, count);
}
