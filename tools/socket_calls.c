/* Stands before the system's calls for the sockets and files of a daemon that it is loaded into. To the file that
 * TOLD_CALLS names it appends a line for each socket that listens, with the mode that its file has by then, and for each
 * file that is removed. REFUSED_ACCEPTS has numbers of errors: each is what one call fails with that accepts a connection,
 * from the first one on. Where LOST_LOCK is set, the first file that is locked is removed right before that, as its last
 * holder might. tools/preloaded.py builds it. */
#define _GNU_SOURCE
#include <dlfcn.h>
#include <errno.h>
#include <stdatomic.h>
#include <stdio.h>
#include <stdlib.h>
#include <sys/socket.h>
#include <sys/stat.h>
#include <sys/un.h>
#include <unistd.h>

static void *next(const char *call) {
    return dlsym(RTLD_NEXT, call);
}

static void tell(const char *call, const char *path, unsigned mode) {
    const char *name = getenv("TOLD_CALLS");
    FILE *told = name ? fopen(name, "a") : NULL;
    if (told) {
        fprintf(told, "%s %s %o\n", call, path, mode);
        fclose(told);
    }
}

int listen(int socket, int backlog) {
    struct sockaddr_un address;
    socklen_t length = sizeof address;
    struct stat file;
    if (getsockname(socket, (struct sockaddr *)&address, &length) == 0 && stat(address.sun_path, &file) == 0)
        tell("listens", address.sun_path, file.st_mode & 0777);
    return ((int (*)(int, int))next("listen"))(socket, backlog);
}

int unlink(const char *path) {
    tell("removed", path, 0);
    return ((int (*)(const char *))next("unlink"))(path);
}

int flock(int file, int operation) {
    static atomic_int calls;
    char link[64], path[4096] = "";
    if (getenv("LOST_LOCK") && atomic_fetch_add(&calls, 1) == 0) {
        snprintf(link, sizeof link, "/proc/self/fd/%d", file);
        if (readlink(link, path, sizeof path - 1) > 0)
            ((int (*)(const char *))next("unlink"))(path);
    }
    return ((int (*)(int, int))next("flock"))(file, operation);
}

int accept4(int socket, struct sockaddr *address, socklen_t *length, int flags) {
    static atomic_int calls;
    char *errors = getenv("REFUSED_ACCEPTS");
    int error = 0;
    for (int left = errors ? atomic_fetch_add(&calls, 1) : -1; left >= 0; left--)
        error = strtol(errors, &errors, 10);
    if (error) {
        errno = error;
        return -1;
    }
    return ((int (*)(int, struct sockaddr *, socklen_t *, int))next("accept4"))(socket, address, length, flags);
}
