/* A sequence in a file: the blocks that the library has written, and nothing else. A file is replaced so that whatever cuts the terminal off, a power
   cut too, leaves the old file or the new one, whole: the new one is written beside it and is on the disk before it takes the old one's name. */
#define _POSIX_C_SOURCE 200809L
#include <errno.h>
#include <fcntl.h>
#include <string.h>
#include <sys/stat.h>
#include <unistd.h>

#include "host.h"

#define BESIDE ".new"               /* what a terminal that was cut off has left there is removed by the next one */
#define PATH_BYTES 4096u

/* The system says by errno why it could not. */
static bool keep_fails(const char *path, const char *what, struct fault *fault)
{
    return fault_say(fault, FAULT_RUN, "%s %s: %s", path, what, strerror(errno));
}

/* The file beside this one, and the folder of both: a name is changed within a folder. */
static bool keep_places(const char *path, char beside[PATH_BYTES], char folder[PATH_BYTES], struct fault *fault)
{
    const char *slash = strrchr(path, '/');
    size_t length = strlen(path);

    if (length == 0 || length + sizeof BESIDE > PATH_BYTES) {
        return fault_say(fault, FAULT_RUN, "a path of %zu bytes is none for a file", length);
    }
    snprintf(beside, PATH_BYTES, "%s" BESIDE, path);
    if (slash == NULL) {
        snprintf(folder, PATH_BYTES, ".");
    } else {
        snprintf(folder, PATH_BYTES, "%.*s", slash == path ? 1 : (int)(slash - path), path);
    }
    return true;
}

/* A device, a folder or a link is not replaced by a file. */
static bool keep_replaces(const char *path, struct fault *fault)
{
    struct stat there;

    if (lstat(path, &there) != 0) {
        return errno == ENOENT || fault_say(fault, FAULT_RUN, "%s cannot be looked at: %s", path, strerror(errno));
    }
    return S_ISREG(there.st_mode) || fault_say(fault, FAULT_RUN, "%s is there and is no plain file: it stays", path);
}

/* All bytes, and onto the disk. A write may take fewer than it was given. */
static bool keep_put(int file, const uint8_t *bytes, size_t length)
{
    while (length > 0) {
        ssize_t put = write(file, bytes, length);
        if (put < 0 && errno != EINTR) {
            return false;
        }
        bytes += put > 0 ? put : 0;
        length -= put > 0 ? (size_t)put : 0;
    }
    return fsync(file) == 0;
}

/* A new file that holds just these bytes; where that fails there is none. */
static bool keep_new(const char *path, const uint8_t *bytes, size_t length, struct fault *fault)
{
    int file;
    bool ok;

    unlink(path);                   /* whatever it gives: what must be true is that the file can be made */
    file = open(path, O_WRONLY | O_CREAT | O_EXCL | O_CLOEXEC, 0666);
    if (file < 0) {
        return keep_fails(path, "cannot be made", fault);
    }
    ok = keep_put(file, bytes, length) || keep_fails(path, "cannot be written", fault);
    ok = (close(file) == 0 || !ok || keep_fails(path, "cannot be written", fault)) && ok;
    if (!ok) {
        unlink(path);
    }
    return ok;
}

/* A new name is on the disk when its folder is. */
static bool keep_folder(const char *path)
{
    int folder = open(path, O_RDONLY | O_DIRECTORY | O_CLOEXEC);
    bool ok = folder >= 0 && fsync(folder) == 0;
    int error = errno;

    if (folder >= 0) {
        close(folder);              /* nothing was written to it */
    }
    errno = error;
    return ok;
}

bool keep_write(const char *path, const uint8_t *bytes, size_t length, struct fault *fault)
{
    char beside[PATH_BYTES], folder[PATH_BYTES];

    if (!keep_places(path, beside, folder, fault) || !keep_replaces(path, fault) || !keep_new(beside, bytes, length, fault)) {
        return false;
    }
    if (rename(beside, path) != 0) {
        keep_fails(path, "cannot be replaced", fault);
        unlink(beside);
        return false;
    }
    return keep_folder(folder) || keep_fails(path, "is written, but a power cut may still bring the old one back", fault);
}

/* Up to the end of the file, and no further than one byte more than any sequence has. A read may give fewer bytes than it was asked for. */
static bool keep_get(int file, uint8_t *bytes, size_t *length)
{
    ssize_t got = 1;

    for (*length = 0; *length < KEEP_BYTES && got != 0; *length += got > 0 ? (size_t)got : 0) {
        got = read(file, bytes + *length, KEEP_BYTES - *length);
        if (got < 0 && errno != EINTR) {
            return false;
        }
    }
    return true;
}

bool keep_read(const char *path, uint8_t bytes[KEEP_BYTES], size_t *length, struct fault *fault)
{
    int file = open(path, O_RDONLY | O_CLOEXEC);
    bool ok = file >= 0 && keep_get(file, bytes, length);
    int error = errno;

    if (file >= 0) {
        close(file);                /* it was only read */
    }
    if (!ok) {
        return fault_say(fault, FAULT_INPUT, "%s cannot be read: %s", path, strerror(error));
    }
    return *length <= SCM_STORE_BYTES || fault_say(fault, FAULT_INPUT, "%s has more than the %u bytes of the longest sequence", path, SCM_STORE_BYTES);
}

bool keep_refused(const char *path, size_t length, uint8_t number, struct fault *fault)
{
    const char *why = "no block of it is damaged, but blocks are missing or left over, or something else has written it, or a later version";

    if (number == SCM_CHECK_WRONG) {
        why = "the file is damaged, or holds no sequence at all; take another copy of it";
    } else if (length == 0) {
        why = "the file is empty";
    } else if (length % SCM_BLOCK_BYTES != 0) {
        why = "the file was cut, or is something else";
    }
    return fault_say(fault, FAULT_INPUT, "%s: %u %s: %s", path, (unsigned)number, scm_number_text(number), why);
}
