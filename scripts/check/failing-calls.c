// Makes reads or writes of a program fail, or do less than they are asked for. Load it before the C
// library, with variables: CALL is `read` or `write`; AT is the number of the call that is meant,
// counted from 1, or 0 for each; HOW is what it does: `fails`, is `interrupted`, takes or gives
// `nothing`, or one `byte`. With HOW `shrinks` or `grows` the file CHANGED loses all its bytes, or
// gets 65,536 more, before the call goes on. Writes are those to standard output, or to the
// descriptor in OF. At the end file descriptor 9 gets how many calls there were. A program that has
// threads ends by `_exit`, past all destructors.
#define _GNU_SOURCE
#include <dlfcn.h>
#include <errno.h>
#include <fcntl.h>
#include <stdatomic.h>
#include <stdio.h>
#include <stdlib.h>
#include <string.h>
#include <unistd.h>

static atomic_ulong calls;
static unsigned long at;
static const char *call = "", *how = "";
static int of = 1;

__attribute__((constructor)) static void begin(void) {
    const char *number = getenv("AT"), *descriptor = getenv("OF");
    at = number ? strtoul(number, NULL, 10) : 0;
    of = descriptor ? atoi(descriptor) : 1;
    call = getenv("CALL") ? getenv("CALL") : "";
    how = getenv("HOW") ? getenv("HOW") : "";
}

__attribute__((destructor)) static void end(void) {
    dprintf(9, "%lu\n", (unsigned long)atomic_load(&calls));
}

void _exit(int status) {
    void (*next)(int) = (void (*)(int))dlsym(RTLD_NEXT, "_exit");
    end();
    next(status);
    __builtin_unreachable();
}

// Whether this call is one that is meant.
static int is_meant(const char *name) {
    if (strcmp(call, name) != 0) {
        return 0;
    }
    unsigned long number = atomic_fetch_add(&calls, 1) + 1;
    return at == 0 || number == at;
}

static void change(void) {
    static char more[65536];
    const char *path = getenv("CHANGED");
    int as = strcmp(how, "shrinks") == 0 ? O_WRONLY | O_TRUNC : O_WRONLY | O_APPEND;
    int file = path ? open(path, as) : -1;
    if (file < 0) {
        return;
    }
    if (strcmp(how, "grows") == 0) {
        ssize_t (*next)(int, const void *, size_t);
        next = (ssize_t (*)(int, const void *, size_t))dlsym(RTLD_NEXT, "write");
        memset(more, '\n', sizeof more);
        next(file, more, sizeof more);
    }
    close(file);
}

// How many bytes the call may move: fewer than it is asked for, or all, or -1 where it fails.
static ssize_t allowed(size_t size) {
    if (strcmp(how, "fails") == 0 || strcmp(how, "interrupted") == 0) {
        errno = strcmp(how, "fails") == 0 ? EIO : EINTR;
        return -1;
    }
    if (strcmp(how, "nothing") == 0) {
        return 0;
    }
    if (strcmp(how, "byte") == 0) {
        return size > 0;
    }
    change();
    return (ssize_t)size;
}

ssize_t read(int file, void *to, size_t size) {
    static ssize_t (*next)(int, void *, size_t);
    if (!next) {
        next = (ssize_t (*)(int, void *, size_t))dlsym(RTLD_NEXT, "read");
    }
    ssize_t most = is_meant("read") ? allowed(size) : (ssize_t)size;
    return most <= 0 ? most : next(file, to, (size_t)most);
}

ssize_t write(int file, const void *from, size_t size) {
    static ssize_t (*next)(int, const void *, size_t);
    if (!next) {
        next = (ssize_t (*)(int, const void *, size_t))dlsym(RTLD_NEXT, "write");
    }
    ssize_t most = file == of && is_meant("write") ? allowed(size) : (ssize_t)size;
    return most <= 0 ? most : next(file, from, (size_t)most);
}
