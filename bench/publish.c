/* What a run of hostext_publish asks of the system, and nothing else: publish STORE/FROM.. as files below OUT/RES/NAME.
 *
 *     publish few|same STORE OUT/RES NAME TEXT < LIST
 *
 * LIST has on each line a path below STORE, a tab and a path below NAME, in path order. RES is made in a folder that is there, and
 * of the file TEXT NAME.tree. Each file is read in pieces of 65,536 bytes, its SHA-256 taken by plain C, written and synced; folders
 * are made before the first file in them, and the folder above each is synced at once. Then the folders with files are synced,
 * then RES; the manifest is written beside its name, with the SHA-256 of the text, synced and renamed, and RES is synced before
 * and after. With `few` each file costs the calls that this can't do without, and each folder is synced once; with `same` those
 * that hostext_publish makes: it also looks at what stands at the store's path and at the folders above the new file, reads on
 * until there is nothing more, and syncs the folder of each file. */
#define _GNU_SOURCE
#include "sha256.h"
#include <fcntl.h>
#include <stdio.h>
#include <stdlib.h>
#include <sys/stat.h>
#include <unistd.h>

static unsigned char piece[65536];
static int same;

static void fail(const char *what) {
    perror(what);
    exit(1);
}

static int look(const char *path) {
    struct statx found;
    return statx(AT_FDCWD, path, AT_STATX_SYNC_AS_STAT | AT_SYMLINK_NOFOLLOW, STATX_ALL, &found);
}

static void sync_folder(const char *path) {
    if (same && look(path) < 0) fail(path);
    int folder = open(path, O_RDONLY | O_DIRECTORY);
    if (folder < 0 || fsync(folder) < 0) fail(path);
    close(folder);
}

static int make(const char *path) {
    int file = open(path, O_WRONLY | O_CREAT | O_EXCL | O_NOCTTY | O_APPEND | O_CLOEXEC, 0666);
    if (file < 0) fail(path);
    return file;
}

static void finish(int file, const char *path) {
    if (fsync(file) < 0) fail(path);
    close(file);
}

/* Copies a file and takes its SHA-256; `few` ends where the last piece isn't full. */
static void copy(const char *from, const char *to) {
    ssize_t count;
    if (same && look(from) < 0) fail(from);
    int in = open(from, O_RDONLY | O_NOCTTY | O_CLOEXEC), out = make(to);
    if (in < 0) fail(from);
    begin_hash();
    while ((count = read(in, piece, sizeof piece)) > 0) {
        hash(piece, (size_t)count);
        if (write(out, piece, (size_t)count) != count) fail(to);
        if (!same && count < (ssize_t)sizeof piece) break;
    }
    if (count < 0) fail(from);
    end_hash();
    close(in);
    finish(out, to);
}

static void make_folder(const char *path) {
    char above[16384];
    if (mkdir(path, 0777) < 0) fail(path);
    snprintf(above, sizeof above, "%s", path);
    *strrchr(above, '/') = 0;
    sync_folder(above);
}

/* Makes the folders above a file from `begin` on that the file before hadn't, and looks at the others. */
static void make_folders(char *path, size_t begin, const char *before) {
    for (char *slash = strchr(path + begin, '/'); slash; slash = strchr(slash + 1, '/')) {
        size_t length = (size_t)(slash - path);
        int is_there = strncmp(path, before, length) == 0 && (before[length] == '/' || before[length] == 0);
        *slash = 0;
        if (!is_there) make_folder(path);
        else if (same && look(path) < 0) fail(path);
        *slash = '/';
    }
}

static void list(const char *folder, const char *name) {
    char next[16384], manifest[16384];
    snprintf(next, sizeof next, "%s/SHA256SUMS.next", folder);
    snprintf(manifest, sizeof manifest, "%s/SHA256SUMS", folder);
    int file = make(next);
    for (int at = 0; at < 8; at++) dprintf(file, "%08x", state[at]);
    dprintf(file, "  %s.tree\n", name);
    finish(file, next);
    sync_folder(folder);
    if (rename(next, manifest) < 0) fail(manifest);
    sync_folder(folder);
}

int main(int count, char **words) {
    static char line[16384], from[32768], to[32768], before[32768], synced[32768];
    uint32_t digest[8];
    if (count != 6) return 2;
    same = strcmp(words[1], "same") == 0;
    const char *store = words[2], *folder = words[3], *name = words[4], *text = words[5];
    make_tables();
    make_folder(folder);
    snprintf(to, sizeof to, "%s/%s.tree", folder, name);
    copy(text, to);
    memcpy(digest, state, sizeof digest);
    size_t files = 0, room = 0;
    char **made = NULL;
    snprintf(before, sizeof before, "%s", folder);
    for (; fgets(line, sizeof line, stdin); files++) {
        char *path = strchr(line, '\t');
        if (!path) return 2;
        *path++ = 0;
        path[strcspn(path, "\n")] = 0;
        snprintf(from, sizeof from, "%s/%s", store, line);
        snprintf(to, sizeof to, "%s/%s/%s", folder, name, path);
        make_folders(to, strlen(folder) + 1, before);
        copy(from, to);
        memcpy(before, to, sizeof before);
        *strrchr(before, '/') = 0;
        if (files == room) made = realloc(made, (room = 2 * room + 64) * sizeof *made);
        if (!made || !(made[files] = strdup(before))) fail("memory");
    }
    for (size_t at = 0; at < files; at++) {
        if (!same && strcmp(synced, made[at]) == 0) continue;
        sync_folder(made[at]);
        snprintf(synced, sizeof synced, "%s", made[at]);
    }
    sync_folder(folder);
    memcpy(state, digest, sizeof digest);
    list(folder, name);
    return 0;
}
