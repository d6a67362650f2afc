/* A new file beside the old one, and a name given in one step. */
#define _GNU_SOURCE
#include "whole.h"

#include <dirent.h>
#include <errno.h>
#include <fcntl.h>
#include <libgen.h>
#include <signal.h>
#include <stdio.h>
#include <stdlib.h>
#include <string.h>
#include <sys/random.h>
#include <sys/stat.h>
#include <unistd.h>

/* A new file's name: a point, the name that it is called after, this, and random characters. */
#define MARK ".new-"
#define RANDOM 6

static complaint because(const char *what)
{
    return complain("%s: %s", what, strerror(errno));
}

/* Above a limit on the size of files write says so, as on a full disk, rather than that the process is ended. */
int whole_append(int file, const uint8_t *bytes, size_t length)
{
    signal(SIGXFSZ, SIG_IGN);
    for (size_t done = 0; done < length;) {
        ssize_t put = write(file, bytes + done, length - done);
        if (put < 0 && errno != EINTR)
            return 0;
        done += put > 0 ? (size_t)put : 0;
    }
    return fsync(file) == 0;
}

/* How many characters of a path name its folder. */
static int folder_length(const char *path)
{
    const char *slash = strrchr(path, '/');
    return slash ? (int)(slash - path) + 1 : 0;
}

/* A new file called after a path, of a name that was not there. */
static int make_new(const char *path, mode_t mode, char **name)
{
    static const char letters[] = "abcdefghijklmnopqrstuvwxyz234567";
    uint8_t chance[RANDOM];
    int folder = folder_length(path);
    int length = asprintf(name, "%.*s.%s" MARK "%*s", folder, path, path + folder, RANDOM, "");
    if (length < 0 || getrandom(chance, RANDOM, 0) != RANDOM) {
        *name = length < 0 ? NULL : *name;
        return -1;
    }
    for (int at = 0; at < RANDOM; at++)
        (*name)[length - RANDOM + at] = letters[chance[at] % 32];
    return open(*name, O_WRONLY | O_CREAT | O_EXCL | O_NOFOLLOW | O_CLOEXEC, mode);
}

static int is_new_name(const char *name, const char *of)
{
    size_t own = strlen(of), mark = strlen(MARK);
    return strlen(name) == 1 + own + mark + RANDOM && name[0] == '.' && strncmp(name + 1, of, own) == 0 &&
           strncmp(name + 1 + own, MARK, mark) == 0;
}

/* Once a process: what others left does not come back while it runs. */
void whole_remove_leftovers(const char *path)
{
    static int done;
    int folder = folder_length(path);
    char *name = done ? NULL : folder ? strndup(path, (size_t)folder) : strdup(".");
    DIR *files = name ? opendir(name) : NULL;
    for (struct dirent *found; files && (found = readdir(files));)
        if (is_new_name(found->d_name, path + folder))
            unlinkat(dirfd(files), found->d_name, 0);
    if (files)
        closedir(files);
    free(name);
    done = 1;
}

/* Gives a new file the owner, group and rights of an old one. Without its group its rights are those of all others. */
static int keep_rights(int file, const struct stat *old, int *given_up)
{
    mode_t rights = old->st_mode & 07777;
    *given_up = 0;
    if (fchown(file, old->st_uid, old->st_gid) != 0) {
        *given_up = old->st_uid != geteuid();
        if (fchown(file, (uid_t)-1, old->st_gid) != 0)
            rights &= (mode_t)~S_IRWXG | (rights & S_IRWXO) << 3;
    }
    return fchmod(file, rights) == 0;
}

/* A rename is on the disk once its folder is. A folder that may not be read cannot be brought there; then all of its disk is. */
static complaint sync_folder(const char *path, int file)
{
    char *copy = strdup(path);
    int folder = copy ? open(dirname(copy), O_RDONLY | O_DIRECTORY | O_CLOEXEC) : -1;
    int done = folder >= 0 ? fsync(folder) : syncfs(file);
    complaint wrong = done == 0 ? NULL : because("is stored, but its folder cannot be brought to the disk");
    if (folder >= 0)
        close(folder);
    free(copy);
    return wrong;
}

/* Where a file system cannot rename so that nothing is replaced, the moment between looking and renaming is left open. */
static int rename_new(const char *name, const char *path)
{
    if (renameat2(AT_FDCWD, name, AT_FDCWD, path, RENAME_NOREPLACE) == 0)
        return 0;
    return (errno == EINVAL || errno == ENOSYS) && access(path, F_OK) != 0 ? rename(name, path) : -1;
}

static complaint give_name(const char *name, const char *path, whole_how how)
{
    if ((how == WHOLE_NEW ? rename_new(name, path) : rename(name, path)) == 0)
        return NULL;
    return how == WHOLE_NEW && errno == EEXIST ? complain("exists already, and is left as it is") : because("cannot be replaced");
}

complaint whole_write(const char *path, const char *like, whole_how how, const uint8_t *bytes, size_t length)
{
    struct stat old;
    int given_up = 0, is_there = stat(like, &old) == 0;
    char *name;
    int file = make_new(like, is_there ? 0600 : 0666, &name);
    int written = file >= 0 && (!is_there || keep_rights(file, &old, &given_up)) && whole_append(file, bytes, length);
    complaint wrong = written ? give_name(name, path, how) : because("the new file cannot be written beside it");
    if (wrong && file >= 0)
        unlink(name);
    if (!wrong && given_up && path == like)
        remark("%s belonged to another user, and is yours now", path);
    if (!wrong)
        wrong = sync_folder(path, file);
    if (file >= 0)
        close(file);
    free(name);
    return wrong;
}
