/* What the tool writes. A file is made beside its place, synced, and gets its name only when it is whole, so that a
 * failure or a kill leaves what was there. */
#define _GNU_SOURCE
#include "tool.h"

#include <errno.h>
#include <fcntl.h>
#include <libgen.h>
#include <string.h>
#include <sys/stat.h>
#include <unistd.h>

#define PATH_SIZE 4096

/* A descriptor 0 to 2 that is closed would be given to the next file opened, and results would go there. */
void guard_descriptors(void) {
    for (int fd = STDIN_FILENO; fd <= STDERR_FILENO; fd++) {
        if (fcntl(fd, F_GETFD) < 0) {
            int got = open("/dev/null", O_RDONLY); /* a write to it fails, as to a closed one */
            if (got != fd) {
                _exit(SYSTEM_FAILED);
            }
        }
    }
}

static bool to_standard(const struct request *r) {
    return r->out != NULL && strcmp(r->out, "-") == 0;
}

/* Where a command that writes a file tells what it did: not into the file. */
FILE *told_on(const struct request *r) {
    return to_standard(r) ? stderr : stdout;
}

/* Asked before any work: an existing file is not replaced unless that was said; what is no plain file never is. */
int out_is_free(const struct request *r) {
    struct stat about;
    if (to_standard(r) || lstat(r->out, &about) < 0) {
        return ALL_WELL;
    }
    if (!S_ISREG(about.st_mode)) {
        return say(r->out, S_ISDIR(about.st_mode) ? "a directory" : "no plain file; -o - writes to standard output");
    }
    return r->force ? ALL_WELL : say(r->out, "exists already; --force replaces it");
}

static bool write_all(int to, const uint8_t *bytes, size_t length) {
    while (length > 0) {
        ssize_t n = write(to, bytes, length);
        if (n < 0 && errno != EINTR) {
            return false;
        }
        if (n > 0) {
            bytes += n;
            length -= (size_t)n;
        }
    }
    return true;
}

/* The new file takes its name; without --force, not that of one which came meanwhile. */
static bool take_name(const char *from, const struct request *r) {
    struct stat about;
    if (r->force) {
        return rename(from, r->out) == 0;
    }
    if (renameat2(AT_FDCWD, from, AT_FDCWD, r->out, RENAME_NOREPLACE) == 0) {
        return true;
    }
    if (errno != EINVAL && errno != ENOSYS) {
        return false;
    }
    if (lstat(r->out, &about) == 0) { /* a file system that cannot promise it: looked at once more */
        errno = EEXIST;
        return false;
    }
    return rename(from, r->out) == 0;
}

/* The rename itself is on disk once the directory is. */
static bool sync_directory(const char *directory) {
    int dir = open(directory, O_RDONLY | O_DIRECTORY | O_CLOEXEC);
    bool done = dir >= 0 && (fsync(dir) == 0 || errno == EINVAL);
    return dir >= 0 && close(dir) == 0 && done;
}

/* A new file in the directory, with a name of its own; its descriptor, or -1. */
static int open_beside(char name[PATH_SIZE], const char *directory, mode_t mode) {
    int to = -1;
    for (int i = 0; i < 100 && to < 0 && (i == 0 || errno == EEXIST); i++) {
        if (snprintf(name, PATH_SIZE, "%s/.pagestore-%ld-%d", directory, (long)getpid(), i) >= PATH_SIZE) {
            errno = ENAMETOOLONG;
            return -1;
        }
        to = open(name, O_WRONLY | O_CREAT | O_EXCL | O_CLOEXEC, mode);
    }
    return to;
}

static int write_file(const struct request *r, mode_t mode, const uint8_t *bytes, size_t length) {
    char copy[PATH_SIZE], beside[PATH_SIZE];
    if (snprintf(copy, sizeof copy, "%s", r->out) >= (int)sizeof copy) {
        errno = ENAMETOOLONG;
        return say_error(r->out);
    }
    const char *directory = dirname(copy);
    int to = open_beside(beside, directory, mode);
    if (to < 0) {
        return say_error(r->out);
    }
    bool whole = write_all(to, bytes, length) && fsync(to) == 0;
    int why = errno;
    whole = close(to) == 0 && whole;
    if (whole && take_name(beside, r)) {
        return sync_directory(directory) ? ALL_WELL : say_error(r->out);
    }
    errno = whole ? errno : why;
    int status = say_error(r->out);
    unlink(beside);
    return status;
}

int write_out(const struct request *r, mode_t mode, const uint8_t *bytes, size_t length) {
    if (!to_standard(r)) {
        return write_file(r, mode, bytes, length);
    }
    return fwrite(bytes, 1, length, stdout) == length ? ALL_WELL : SYSTEM_FAILED; /* close_output says why */
}

/* The last word on standard output: what was buffered is out, and the close went well. */
int close_output(void) {
    errno = 0;
    bool failed = fflush(stdout) != 0 || ferror(stdout) != 0;
    int why = errno;
    if (fclose(stdout) != 0 || failed) {
        errno = why != 0 ? why : errno != 0 ? errno : EIO;
        return say_error("standard output");
    }
    return ALL_WELL;
}
