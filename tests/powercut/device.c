/* A file system of two files. `device` is shown to a loop device as its bytes, and each write and each flush of it is logged in its order.
 * What is written to `reset` is dropped, and what was written to `device` before is dropped with it.
 *
 * usage: device FOLDER BYTES LOG CONTROL
 *   BYTES    a file with the first bytes; it is never changed, and a place that was not written has what the file has there now
 *   LOG      entries are put behind it: a head (below), and behind the head of a write that begins, its bytes
 *   CONTROL  numbers of 8 bytes, which may change at any time (struct control)
 *
 * A call has two entries, where it begins and where it ends, so that a write is known as settled only where it ended before a flush began.
 */
#define _GNU_SOURCE
#define FUSE_USE_VERSION 34
#include <errno.h>
#include <fcntl.h>
#include <fuse_lowlevel.h>
#include <pthread.h>
#include <sched.h>
#include <stdint.h>
#include <stdio.h>
#include <stdlib.h>
#include <string.h>
#include <sys/mman.h>
#include <sys/stat.h>
#include <sys/uio.h>
#include <time.h>
#include <unistd.h>

enum { ROOT = 1, DEVICE = 2, RESET = 3 };
/* Numbers that are counted down, and at 1 the call fails, or keeps nothing of what it takes; 0 lets all pass. A number above 2^32 fails each
 * call. A write that fails keeps its first half. `hold` is how many microseconds a write or a flush takes. */
struct control { uint64_t fail_write, fail_flush, fail_read, lose_write, hold; };
struct head { char kind; char result; char unused[6]; uint64_t number, at, length; };

static const char *names[] = {0, 0, "device", "reset"};
static char *bytes;
static size_t size;
static int log_file;
static volatile struct control *control;
static uint64_t numbers;
static pthread_mutex_t lock = PTHREAD_MUTEX_INITIALIZER;

/* An entry of the log. The lock is held. */
static void note(char kind, char result, uint64_t number, uint64_t at, uint64_t length, const char *data) {
    struct head head = {kind, result, {0}, number, at, length};
    struct iovec parts[2] = {{&head, sizeof head}, {(void *)data, data ? length : 0}};
    if (writev(log_file, parts, data ? 2 : 1) != (ssize_t)(sizeof head + parts[1].iov_len)) abort();
}

/* Whether this call is the one that is counted. The lock is held. */
static int comes(volatile uint64_t *count) {
    if (*count > 4294967296u) return 1;
    return *count != 0 && --*count == 0;
}

static void hold(void) {
    struct timespec time = {0, (long)control->hold * 1000};
    if (control->hold) nanosleep(&time, 0);
}

static void tell(fuse_ino_t file, struct stat *it) {
    memset(it, 0, sizeof *it);
    it->st_ino = file;
    it->st_nlink = 1;
    it->st_mode = file == ROOT ? S_IFDIR | 0700 : S_IFREG | 0600;
    it->st_size = file == DEVICE ? size : 0;
    it->st_blksize = 4096;
}

static void look_up(fuse_req_t request, fuse_ino_t folder, const char *name) {
    struct fuse_entry_param entry = {0};
    for (int it = DEVICE; it <= RESET; it++)
        if (folder == ROOT && !strcmp(name, names[it])) entry.ino = it;
    if (!entry.ino) { fuse_reply_err(request, ENOENT); return; }
    tell(entry.ino, &entry.attr);
    entry.attr_timeout = entry.entry_timeout = 1e9;
    fuse_reply_entry(request, &entry);
}

static void get_attributes(fuse_req_t request, fuse_ino_t file, struct fuse_file_info *open) {
    struct stat it;
    tell(file, &it);
    fuse_reply_attr(request, &it, 1e9);
}

/* Asked for where a file is opened to be written; its length stays. */
static void set_attributes(fuse_req_t request, fuse_ino_t file, struct stat *to, int which, struct fuse_file_info *open) {
    get_attributes(request, file, open);
}

static void open_file(fuse_req_t request, fuse_ino_t file, struct fuse_file_info *open) {
    open->direct_io = 1;
    fuse_reply_open(request, open);
}

static void read_some(fuse_req_t request, fuse_ino_t file, size_t length, off_t at, struct fuse_file_info *open) {
    char *copy;
    pthread_mutex_lock(&lock);
    int is_failing = file == DEVICE && comes(&control->fail_read);
    if (file != DEVICE || (size_t)at > size) length = 0;
    else if (length > size - at) length = size - at;
    copy = malloc(length + 1);
    memcpy(copy, bytes + at, length);
    pthread_mutex_unlock(&lock);
    if (is_failing) fuse_reply_err(request, EIO);
    else fuse_reply_buf(request, copy, length);
    free(copy);
}

static void write_some(fuse_req_t request, fuse_ino_t file, const char *data, size_t length, off_t at, struct fuse_file_info *open) {
    if (file == RESET) {
        pthread_mutex_lock(&lock);
        madvise(bytes, size, MADV_DONTNEED);
        pthread_mutex_unlock(&lock);
        fuse_reply_write(request, length);
        return;
    }
    if ((size_t)at > size || length > size - at) { fuse_reply_err(request, ENOSPC); return; }
    pthread_mutex_lock(&lock);
    uint64_t number = numbers++;
    int is_failing = comes(&control->fail_write), is_lost = comes(&control->lose_write);
    note('W', is_failing ? 'f' : is_lost ? 'l' : 'g', number, at, length, data);
    pthread_mutex_unlock(&lock);
    hold();
    pthread_mutex_lock(&lock);
    if (!is_lost) memcpy(bytes + at, data, is_failing ? length / 2 / 512 * 512 : length);
    note('w', is_failing ? 'f' : is_lost ? 'l' : 'g', number, at, length, 0);
    pthread_mutex_unlock(&lock);
    if (is_failing) fuse_reply_err(request, EIO);
    else fuse_reply_write(request, length);
}

static void flush(fuse_req_t request, fuse_ino_t file, int only_data, struct fuse_file_info *open) {
    pthread_mutex_lock(&lock);
    uint64_t number = numbers++;
    int is_failing = comes(&control->fail_flush);
    note('F', is_failing ? 'f' : 'g', number, 0, 0, 0);
    pthread_mutex_unlock(&lock);
    hold();
    pthread_mutex_lock(&lock);
    note('f', is_failing ? 'f' : 'g', number, 0, 0, 0);
    pthread_mutex_unlock(&lock);
    fuse_reply_err(request, is_failing ? EIO : 0);
}

static const struct fuse_lowlevel_ops calls = {
    .lookup = look_up, .getattr = get_attributes, .setattr = set_attributes, .open = open_file,
    .read = read_some, .write = write_some, .fsync = flush,
};

static void *mapped(const char *path, size_t *length, int how, int shared) {
    struct stat it;
    int file = open(path, how);
    if (file < 0 || fstat(file, &it)) { perror(path); exit(1); }
    void *at = mmap(0, *length = it.st_size, PROT_READ | PROT_WRITE, shared, file, 0);
    if (at == MAP_FAILED) { perror(path); exit(1); }
    return at;
}

int main(int count, char **words) {
    size_t length;
    char *options[] = {words[0], "-oallow_other,fsname=powercut", 0};
    struct fuse_args arguments = FUSE_ARGS_INIT(2, options);
    struct fuse_loop_config loop = {.clone_fd = 0, .max_idle_threads = 8};
    if (count != 5) return 2;
    bytes = mapped(words[2], &size, O_RDONLY, MAP_PRIVATE);
    log_file = open(words[3], O_WRONLY | O_CREAT | O_APPEND, 0600);
    control = mapped(words[4], &length, O_RDWR, MAP_SHARED);
    if (log_file < 0 || length < sizeof *control) return 1;
    struct fuse_session *session = fuse_session_new(&arguments, &calls, sizeof calls, 0);
    if (!session || fuse_session_mount(session, words[1])) return 1;
    /* What is mounted from here on is not mounted for this server: else the system may wait for its end to unmount what it serves. */
    if (unshare(CLONE_NEWNS)) return 1;
    /* It works little, and on a busy machine each call waits for it: it is to be served at once, where that may be asked for. */
    sched_setscheduler(0, SCHED_RR, &(struct sched_param){.sched_priority = 1});
    puts("ready");
    fflush(stdout);
    int status = fuse_session_loop_mt(session, &loop);
    fuse_session_unmount(session);
    fuse_session_destroy(session);
    return status != 0;
}
