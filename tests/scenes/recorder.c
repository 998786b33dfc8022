/*
 * Exports one file, `disk`, in a folder, for a loop device to stand on, and records in their order the writes and the flushes that
 * come: recorder BASE RECORD COUNT FOLDER. The file begins with the bytes of BASE, which stays as it is.
 *
 * An event of RECORD is three numbers of eight bytes, and the bytes of a write: (0, where it begins, its size), or of a flush
 * (1, how many events it covers, 0). COUNT has the number of events so far, as eight bytes; it is raised once an event is recorded
 * and before it is answered.
 *
 * A flush covers what had been answered when it was asked for. What is asked for at one time is read whole before anything of it is
 * answered, so that a flush that was asked for beside a write doesn't cover it.
 */
#define FUSE_USE_VERSION 31
#include <errno.h>
#include <fcntl.h>
#include <fuse_lowlevel.h>
#include <poll.h>
#include <stdint.h>
#include <stdio.h>
#include <stdlib.h>
#include <string.h>
#include <sys/mman.h>
#include <sys/stat.h>
#include <unistd.h>

enum { DISK = 2, WRITE = 0, FLUSH = 1, MOST_WAITING = 64 };
#define NAME "disk"
/* The file never changes by another way. */
#define LONG 86400.0

static char *disk;
static off_t disk_size;
static int record;
static volatile uint64_t *count;
static uint64_t answered;
static struct waiting {
    fuse_req_t request;
    size_t size;
    int is_flush;
} waiting[MOST_WAITING];
static int waiting_count;

static void give_up(const char *what)
{
    perror(what);
    exit(1);
}

static void put(const void *bytes, size_t size)
{
    const char *at = bytes;

    while (size > 0) {
        ssize_t done = write(record, at, size);
        if (done < 0)
            give_up("recorder: the record");
        at += done;
        size -= done;
    }
}

static void put_event(uint64_t kind, uint64_t number, const char *bytes, uint64_t size)
{
    uint64_t head[3] = {kind, number, size};

    put(head, sizeof head);
    put(bytes, size);
    *count += 1;
}

static void let_wait(fuse_req_t request, size_t size, int is_flush)
{
    waiting[waiting_count++] = (struct waiting){request, size, is_flush};
}

static void answer_all(void)
{
    for (int at = 0; at < waiting_count; at++) {
        if (waiting[at].is_flush)
            fuse_reply_err(waiting[at].request, 0);
        else
            fuse_reply_write(waiting[at].request, waiting[at].size);
    }
    waiting_count = 0;
    answered = *count;
}

static void fill(fuse_ino_t inode, struct stat *found)
{
    memset(found, 0, sizeof *found);
    found->st_ino = inode;
    found->st_mode = inode == DISK ? S_IFREG | 0600 : S_IFDIR | 0700;
    found->st_nlink = 1;
    found->st_size = inode == DISK ? disk_size : 0;
    found->st_blksize = 4096;
}

static void on_lookup(fuse_req_t request, fuse_ino_t parent, const char *name)
{
    struct fuse_entry_param entry = {.ino = DISK, .attr_timeout = LONG, .entry_timeout = LONG};

    if (parent != FUSE_ROOT_ID || strcmp(name, NAME) != 0) {
        fuse_reply_err(request, ENOENT);
        return;
    }
    fill(DISK, &entry.attr);
    fuse_reply_entry(request, &entry);
}

static void on_getattr(fuse_req_t request, fuse_ino_t inode, struct fuse_file_info *info)
{
    struct stat found;

    (void)info;
    fill(inode, &found);
    fuse_reply_attr(request, &found, LONG);
}

static void on_open(fuse_req_t request, fuse_ino_t inode, struct fuse_file_info *info)
{
    if (inode != DISK) {
        fuse_reply_err(request, EISDIR);
        return;
    }
    info->direct_io = 1;
    fuse_reply_open(request, info);
}

static void on_read(fuse_req_t request, fuse_ino_t inode, size_t size, off_t at, struct fuse_file_info *info)
{
    (void)inode;
    (void)info;
    if (at >= disk_size)
        size = 0;
    else if (size > (size_t)(disk_size - at))
        size = disk_size - at;
    fuse_reply_buf(request, disk + at, size);
}

static void on_write(fuse_req_t request, fuse_ino_t inode, const char *bytes, size_t size, off_t at, struct fuse_file_info *info)
{
    (void)inode;
    (void)info;
    if (at < 0 || at > disk_size || size > (size_t)(disk_size - at)) {
        fuse_reply_err(request, ENOSPC);
        return;
    }
    memcpy(disk + at, bytes, size);
    put_event(WRITE, at, bytes, size);
    let_wait(request, size, 0);
}

static void on_fsync(fuse_req_t request, fuse_ino_t inode, int data_only, struct fuse_file_info *info)
{
    (void)inode;
    (void)data_only;
    (void)info;
    put_event(FLUSH, answered, NULL, 0);
    let_wait(request, 0, 1);
}

static const struct fuse_lowlevel_ops calls = {
    .lookup = on_lookup,
    .getattr = on_getattr,
    .open = on_open,
    .read = on_read,
    .write = on_write,
    .fsync = on_fsync,
};

static void map(const char *base, const char *counter)
{
    struct stat found;
    int file = open(base, O_RDONLY | O_CLOEXEC);

    if (file < 0 || fstat(file, &found) < 0)
        give_up(base);
    disk_size = found.st_size;
    disk = mmap(NULL, disk_size, PROT_READ | PROT_WRITE, MAP_PRIVATE | MAP_NORESERVE, file, 0);
    if (disk == MAP_FAILED)
        give_up(base);
    close(file);
    file = open(counter, O_RDWR | O_CLOEXEC);
    if (file < 0)
        give_up(counter);
    count = mmap(NULL, sizeof *count, PROT_READ | PROT_WRITE, MAP_SHARED, file, 0);
    if (count == MAP_FAILED)
        give_up(counter);
    close(file);
}

/* Reads all that is asked for, and then answers what of it waits. */
static void serve(struct fuse_session *session)
{
    struct fuse_buf buffer = {.mem = NULL};
    struct pollfd ready = {.fd = fuse_session_fd(session), .events = POLLIN};

    while (!fuse_session_exited(session)) {
        int is_full = waiting_count == MOST_WAITING;
        int found = is_full ? 0 : poll(&ready, 1, waiting_count ? 0 : -1);

        if (found < 0 && errno != EINTR)
            give_up("recorder: poll");
        if (found > 0) {
            int size = fuse_session_receive_buf(session, &buffer);
            if (size == -EINTR || size == -EAGAIN)
                continue;
            if (size <= 0)
                break;
            fuse_session_process_buf(session, &buffer);
        } else if (found == 0) {
            answer_all();
        }
    }
    free(buffer.mem);
}

int main(int argc, char **argv)
{
    char *words[] = {argv[0], "-o", "fsname=recorder", NULL};
    struct fuse_args args = FUSE_ARGS_INIT(3, words);
    struct fuse_session *session;

    if (argc != 5) {
        fprintf(stderr, "usage: recorder BASE RECORD COUNT FOLDER\n");
        return 2;
    }
    map(argv[1], argv[3]);
    record = open(argv[2], O_WRONLY | O_CREAT | O_EXCL | O_CLOEXEC, 0600);
    if (record < 0)
        give_up(argv[2]);
    session = fuse_session_new(&args, &calls, sizeof calls, NULL);
    if (session == NULL || fuse_session_mount(session, argv[4]) != 0)
        return 1;
    serve(session);
    fuse_session_unmount(session);
    fuse_session_destroy(session);
    return 0;
}
