/* For mkstemp, readlink and fchmod, which C alone does not have. */
#define _XOPEN_SOURCE 700

#include "output.h"

#include "status.h"

#include <errno.h>
#include <stdio.h>
#include <stdlib.h>
#include <string.h>
#include <sys/stat.h>
#include <unistd.h>

/* As many symbolic links are followed, as the system itself follows. */
#define LINKS_MOST 40

/* The longest path of a file, with its ending zero. */
#define PATH_SIZE 4096

/* The file that is written: its name as it is given, which messages have; where
 * it is, after all symbolic links; whether one is there already; its permissions,
 * and whose it is. */
struct place {
    const char *name;
    char path[PATH_SIZE];
    int exists;
    mode_t mode;
    uid_t owner;
    gid_t group;
};

/* Says that not all was written, why, and what was kept. */
static int not_written(const struct place *place, int error)
{
    char what[PATH_SIZE + 200];
    snprintf(what, sizeof what, "not all could be written (%s): %s%s",
             strerror(error), place->exists ? place->name : "no file was made",
             place->exists ? " is as it was" : "");
    return wrong(place->name, what);
}

/* How many bytes of a path are its folder, with the slash; 0 if it has none. */
static size_t folder_length(const char *path)
{
    const char *slash = strrchr(path, '/');
    return slash == NULL ? 0 : (size_t)(slash - path) + 1;
}

/* Puts a name in the place of what follows the folder in a path, or in the place
 * of the whole path where the name starts at the root. Gives 0, or an error. */
static int replace_last(char path[PATH_SIZE], const char *name)
{
    size_t folder = name[0] == '/' ? 0 : folder_length(path);
    if (folder + strlen(name) >= PATH_SIZE)
        return ENAMETOOLONG;
    strcpy(path + folder, name);
    return 0;
}

/* Follows symbolic links, also to a file that is not there yet. Gives 0, or an
 * error. */
static int follow_links(char path[PATH_SIZE])
{
    for (int links = 0; links < LINKS_MOST; links++) {
        char next[PATH_SIZE];
        ssize_t len = readlink(path, next, sizeof next - 1);
        if (len < 0)
            return 0;
        next[len] = '\0';
        int error = replace_last(path, next);
        if (error != 0)
            return error;
    }
    return ELOOP;
}

/* Writes all to an open file and closes it, on the disk if it is regular. Gives
 * 0, or an error. */
static int write_all(FILE *out, const uint8_t *bytes, size_t len, int regular)
{
    int error = 0;
    errno = 0;
    if (fwrite(bytes, 1, len, out) != len || fflush(out) != 0
        || (regular && fsync(fileno(out)) != 0))
        error = errno != 0 ? errno : EIO;
    if (fclose(out) != 0 && error == 0)
        error = errno != 0 ? errno : EIO;
    return error;
}

/* Writes straight to what is no regular file. */
static int write_straight(const char *name, const uint8_t *bytes, size_t len)
{
    char what[200];
    FILE *out = fopen(name, "wb");
    if (out == NULL)
        return wrong(name, strerror(errno));
    int error = write_all(out, bytes, len, 0);
    if (error == 0)
        return 0;
    snprintf(what, sizeof what, "not all could be written (%s)", strerror(error));
    return wrong(name, what);
}

/* Opens a file of another name in the same folder, which gets the permissions of
 * the new file. Gives NULL, and leaves the error in errno, where it cannot. */
static FILE *open_beside(const struct place *place, char path[PATH_SIZE])
{
    strcpy(path, place->path);
    errno = replace_last(path, ".check-XXXXXX");
    if (errno != 0)
        return NULL;
    int opened = mkstemp(path);
    if (opened < 0)
        return NULL;
    /* Only root can give a file away; for anyone else it stays one's own. */
    if (place->exists && fchown(opened, place->owner, place->group) != 0)
        errno = 0;
    FILE *out = fchmod(opened, place->mode) == 0 ? fdopen(opened, "wb") : NULL;
    if (out == NULL) {
        int error = errno;
        close(opened);
        unlink(path);
        errno = error;
    }
    return out;
}

/* Writes beside the new file, and then gives it its name. Gives 0, or an
 * error. */
static int write_beside(const struct place *place, const uint8_t *bytes, size_t len)
{
    char beside[PATH_SIZE];
    FILE *out = open_beside(place, beside);
    if (out == NULL)
        return errno;
    int error = write_all(out, bytes, len, 1);
    if (error == 0 && rename(beside, place->path) != 0)
        error = errno;
    if (error != 0)
        unlink(beside);
    return error;
}

/* The permissions of a file that is made anew. */
static mode_t new_mode(void)
{
    mode_t mask = umask(0);
    umask(mask);
    return 0666 & ~mask;
}

static int is_same(const struct stat *one, const struct stat *other)
{
    return one->st_dev == other->st_dev && one->st_ino == other->st_ino;
}

int would_replace(const char *name, const char *input)
{
    struct stat there, read;
    int failed = strcmp(input, "-") == 0 ? fstat(STDIN_FILENO, &read) : stat(input, &read);
    return failed == 0 && stat(name, &there) == 0 && S_ISREG(there.st_mode)
        && is_same(&there, &read);
}

/* Whether this is the file that standard output goes to. */
static int is_standard_output(const struct stat *there)
{
    struct stat out;
    return fstat(STDOUT_FILENO, &out) == 0 && is_same(&out, there);
}

/* Replaces a regular file, or makes one. */
static int replace_file(struct place *place, const uint8_t *bytes, size_t len)
{
    /* A rename would also replace a file that may not be written. */
    int error = place->exists && access(place->name, W_OK) != 0 ? errno : 0;
    if (error == 0)
        error = replace_last(place->path, place->name);
    if (error == 0)
        error = follow_links(place->path);
    if (error == 0)
        error = write_beside(place, bytes, len);
    return error == 0 ? 0 : not_written(place, error);
}

int write_output(const char *name, const uint8_t *bytes, size_t len)
{
    struct place place = {.name = name, .mode = new_mode()};
    struct stat there;
    /* It may be a pipe that the report goes to as well. */
    fflush(stdout);
    place.exists = stat(name, &there) == 0;
    if (place.exists) {
        /* To replace it would be to lose the report. Whether all of that could
         * be written, is asked at the end. */
        if (is_standard_output(&there)) {
            fwrite(bytes, 1, len, stdout);
            return 0;
        }
        if (!S_ISREG(there.st_mode))
            return write_straight(name, bytes, len);
        place.mode = there.st_mode & 07777;
        place.owner = there.st_uid;
        place.group = there.st_gid;
    }
    return replace_file(&place, bytes, len);
}
