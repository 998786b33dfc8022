/* What a change of a store asks of the system, and nothing else: copy DEPOT/RES FILES.. into STORE/g-2 as numbered files.
 *
 *     copy few|same|hash DEPOT STORE < LIST
 *
 * LIST has a path of the depot on each line. Each file is opened, read and written in pieces of 65,536 bytes, synced and
 * closed; each folder of 256 files is synced, then the generation's; `next` is written, synced and renamed over `current`,
 * and the store folder is synced before and after. No index is written. With `few` each file costs the calls that a copy can't do
 * without; with `same` those that hostext makes of it, in its order: it also looks at what stands at the depot's path, and reads
 * on until there is nothing more. With `hash` each file's SHA-256 is taken too, as hostext has to, by plain C. */
#define _GNU_SOURCE
#include "sha256.h"
#include <fcntl.h>
#include <stdio.h>
#include <stdlib.h>
#include <sys/stat.h>
#include <unistd.h>

static unsigned char piece[65536];

static void fail(const char *what) {
    perror(what);
    exit(1);
}

static void sync_folder(const char *path) {
    int folder = open(path, O_RDONLY | O_DIRECTORY);
    if (folder < 0 || fsync(folder) < 0) fail(path);
    close(folder);
}

static void copy(const char *from, const char *to) {
    int in = open(from, O_RDONLY), out = open(to, O_WRONLY | O_CREAT | O_EXCL, 0666);
    ssize_t count;
    if (in < 0) fail(from);
    if (out < 0) fail(to);
    while ((count = read(in, piece, sizeof piece)) > 0)
        if (write(out, piece, count) != count) fail(to);
    if (fsync(out) < 0) fail(to);
    close(in);
    close(out);
}

/* With each call that hostext makes of a file. */
static void copy_looking(const char *from, const char *to, int hashes) {
    struct statx found;
    ssize_t count;
    if (statx(AT_FDCWD, from, AT_STATX_SYNC_AS_STAT, STATX_ALL, &found) < 0) fail(from);
    int out = open(to, O_WRONLY | O_CREAT | O_EXCL | O_NOCTTY | O_APPEND | O_CLOEXEC, 0666);
    if (out < 0) fail(to);
    int in = open(from, O_RDONLY | O_NOCTTY | O_CLOEXEC);
    if (in < 0) fail(from);
    if (hashes) begin_hash();
    while ((count = read(in, piece, sizeof piece)) > 0) {
        if (hashes) hash(piece, (size_t)count);
        if (write(out, piece, count) != count) fail(to);
    }
    if (hashes) end_hash();
    close(in);
    if (fsync(out) < 0) fail(to);
    close(out);
}

int main(int count, char **words) {
    char line[8192], from[16384], to[4096], folder[4096];
    int number = 0;
    if (count != 4) return 2;
    int hashes = strcmp(words[1], "hash") == 0, same = hashes || strcmp(words[1], "same") == 0;
    if (hashes) make_tables();
    words++;
    snprintf(to, sizeof to, "%s/g-2", words[2]);
    if (mkdir(to, 0777) < 0) fail(to);
    for (; fgets(line, sizeof line, stdin); number++) {
        line[strcspn(line, "\n")] = 0;
        snprintf(folder, sizeof folder, "%s/g-2/%03x", words[2], number / 256);
        if (number % 256 == 0 && mkdir(folder, 0777) < 0) fail(folder);
        snprintf(from, sizeof from, "%s/%s", words[1], line);
        snprintf(to, sizeof to, "%s/%02x", folder, number % 256);
        if (same) copy_looking(from, to, hashes);
        else copy(from, to);
    }
    for (int at = 0; at * 256 < number; at++) {
        snprintf(folder, sizeof folder, "%s/g-2/%03x", words[2], at);
        sync_folder(folder);
    }
    snprintf(to, sizeof to, "%s/g-2", words[2]);
    sync_folder(to);
    snprintf(from, sizeof from, "%s/next", words[2]);
    int next = open(from, O_WRONLY | O_CREAT | O_EXCL, 0666);
    if (next < 0 || write(next, "g-2\n", 4) != 4 || fsync(next) < 0) fail(from);
    close(next);
    sync_folder(words[2]);
    snprintf(to, sizeof to, "%s/current", words[2]);
    if (rename(from, to) < 0) fail(to);
    sync_folder(words[2]);
    return 0;
}
