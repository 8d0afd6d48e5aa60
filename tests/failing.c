/* A file system that fails, to be loaded before the C library (LD_PRELOAD): a tool of the tests, no part of the program.
 *
 * It counts the calls that change files below a directory, from 0: open for writing, mkdir, pwrite, fsync, fdatasync, fchmod, rename and
 * unlink. At chosen ones it fails, or ends or holds the process. No sync reaches the disk. In its place the library keeps, for each file, what
 * a loss of power leaves, byte by byte; tests/power.py reads that and makes the loss. What is kept outlives the process, as a machine does. An
 * fdatasync keeps the bytes and the length of a file as an fsync does; of a directory it keeps nothing. Until a directory is synced a loss of
 * power may take back the names that were made, moved and removed in it.
 *
 *   FAILING_BELOW  the directory, an absolute path without links
 *   FAILING_KEPT   a directory of the library's own, with a file for each file below, and `calls`, a line for each call that counts
 *   FAILING_PLAN   what happens, as `eio:12,power:40`: a kind, and the call's number; with `:3` behind it, at so many calls from there on
 *   FAILING_SEED   a number, from which comes what is left to chance
 *   FAILING_ONLY   if set, the path below whose reads and looks count, as `/clicks`; else those of all paths below do
 *
 *   eio, enospc    the call fails; a write may have written a part, and a sync has lost what was written since the last one
 *   sync           the same of the first sync from there on, with EIO
 *   drop           as sync, and the file reads at once as the disk has it: each byte that was lost is the old one, the new one or any
 *   eintr          the call fails and does nothing; but a rename or an unlink, which no signal ends, is made
 *   short          a write writes a part and says so
 *   lie            a sync says that it was done, and wasn't
 *   power, kill    a write is done, a sync isn't, and the process is killed
 *   hold           the process stops itself before the call
 *
 * Calls of these kinds are counted by themselves, each kind from 0, and what happens to them stands in `struck`:
 *
 *   read           a pread of a file below fails with EIO
 *   blind          such a pread says that the file ends there
 *   brief          such a pread reads one byte
 *   stat           a statx of a path below fails with EIO
 *   lock           a flock of a file below fails with ENOLCK
 *   thread         a pthread_create fails with EAGAIN
 *   memory         a malloc or a realloc fails
 */
#define _GNU_SOURCE
#include <dirent.h>
#include <dlfcn.h>
#include <errno.h>
#include <fcntl.h>
#include <limits.h>
#include <pthread.h>
#include <signal.h>
#include <stdarg.h>
#include <stdatomic.h>
#include <stdio.h>
#include <stdlib.h>
#include <string.h>
#include <sys/file.h>
#include <sys/mman.h>
#include <sys/stat.h>
#include <unistd.h>

#define REAL(name) ((typeof(&name))dlsym(RTLD_NEXT, #name))

enum { LONGEST = 1 << 18, FILES = 256, EVENTS = 8 };
/* Marks of a byte: the disk has a known value of it; it was written since the last sync; that sync has failed, so that the disk may have any
 * value of it; a sync that succeeded has acknowledged a value of it. */
enum { KEPT = 1, WRITTEN = 2, LOST = 4, SURE = 8 };

/* Which calls are counted by themselves, and what may happen to them. */
enum counted { WITH_ALL, READS, LOOKS, LOCKS, THREADS, PIECES, COUNTED };
static const struct { const char *kind; enum counted by; } alone[] = {
    {"read", READS}, {"blind", READS}, {"brief", READS}, {"stat", LOOKS}, {"lock", LOCKS}, {"thread", THREADS}, {"memory", PIECES},
};

struct kept {
    unsigned int size;   /* the bytes from here on have no mark */
    unsigned char name;  /* whether the name outlives a loss of power */
    unsigned char bytes[LONGEST], marks[LONGEST], sure[LONGEST];
};
static struct { char path[PATH_MAX]; struct kept *kept; } files[FILES];
static struct { char kind[8]; long at, count; enum counted by; } events[EVENTS];
static int known, planned, calls = -1, struck = -1;
static long count;
static unsigned int seed;
static const char *below, *own, *only;
static pthread_mutex_t lock = PTHREAD_MUTEX_INITIALIZER;
static __thread int is_inside;  /* the library's own allocations don't count */

__attribute__((noreturn)) static void give_up(const char *why)
{
    dprintf(2, "failing: %s\n", why);
    abort();
}

__attribute__((constructor)) static void set_up(void)
{
    char path[PATH_MAX];
    const char *plan = getenv("FAILING_PLAN"), *number = getenv("FAILING_SEED");
    is_inside = 1;
    below = getenv("FAILING_BELOW");
    own = getenv("FAILING_KEPT");
    only = getenv("FAILING_ONLY");
    if (!below || !own || !plan || !number)
        give_up("a setting is missing");
    seed = strtoul(number, 0, 10);
    for (char *one = strtok(strdup(plan), ","); one; one = strtok(0, ",")) {
        events[planned].count = 1;
        if (planned == EVENTS || sscanf(one, "%7[a-z]:%ld:%ld", events[planned].kind, &events[planned].at, &events[planned].count) < 2)
            give_up("the plan can't be read");
        for (size_t k = 0; k < sizeof alone / sizeof *alone; k++)
            if (strcmp(alone[k].kind, events[planned].kind) == 0)
                events[planned].by = alone[k].by;
        planned++;
    }
    snprintf(path, sizeof path, "%s/calls", own);
    calls = REAL(open)(path, O_WRONLY | O_CREAT | O_APPEND | O_CLOEXEC, 0666);
    snprintf(path, sizeof path, "%s/struck", own);
    struck = REAL(open)(path, O_WRONLY | O_CREAT | O_APPEND | O_CLOEXEC, 0666);
    is_inside = 0;
}

static void begin(void)
{
    pthread_mutex_lock(&lock);
    is_inside = 1;
}

/* Ends a call, with its answer or its error. */
static long end(long answer, int fault)
{
    is_inside = 0;
    pthread_mutex_unlock(&lock);
    if (fault)
        errno = fault;
    return fault ? -1 : answer;
}

static int is(const char *kind, const char *one)
{
    return strcmp(kind, one) == 0;
}

static int is_below(const char *path)
{
    size_t size = strlen(below);
    return strncmp(path, below, size) == 0 && (path[size] == '/' || path[size] == 0);
}

/* The path of an open file, or of a name; whether it is below the directory. */
static int find_fd(int fd, char *path)
{
    char link[64];
    snprintf(link, sizeof link, "/proc/self/fd/%d", fd);
    ssize_t size = readlink(link, path, PATH_MAX - 1);
    path[size < 0 ? 0 : size] = 0;
    return is_below(path);
}

static int find_name(const char *name, char *path)
{
    char folder[PATH_MAX], real[PATH_MAX];
    const char *slash = strrchr(name, '/');
    snprintf(folder, sizeof folder, "%.*s", slash ? (int)(slash - name) + 1 : 1, slash ? name : ".");
    path[0] = 0;
    if (realpath(folder, real) && strlen(real) + strlen(name) + 2 < PATH_MAX)
        strcat(strcat(strcpy(path, real), "/"), slash ? slash + 1 : name);
    return is_below(path);
}

/* The library's file for a path, with an ending: `kept` has what is kept of a file, `now` has the file itself after its name is gone. */
static void own_file(const char *path, const char *ending, char *place)
{
    int size = snprintf(place, PATH_MAX, "%s/", own);
    snprintf(place + size, PATH_MAX - size, "%s.%s", path + strlen(below), ending);
    for (char *c = place + size; *c; c++)
        *c = *c == '/' ? '%' : *c;
}

static int place_of(const char *path)
{
    for (int i = 0; i < known; i++)
        if (is(files[i].path, path))
            return i;
    return -1;
}

/* What is kept of a file. One that is met for the first time was made by this call, or else all that it holds is kept. */
static struct kept *kept_of(const char *path, int is_new)
{
    char place[PATH_MAX];
    int i = place_of(path);
    if (i >= 0)
        return files[i].kept;
    own_file(path, "kept", place);
    int is_fresh = access(place, F_OK) != 0, fd = REAL(open)(place, O_RDWR | O_CREAT | O_CLOEXEC, 0666);
    i = place_of("") >= 0 ? place_of("") : known++;
    if (i >= FILES || fd < 0 || ftruncate(fd, sizeof(struct kept)) != 0)
        give_up("nothing can be kept");
    struct kept *kept = mmap(0, sizeof *kept, PROT_READ | PROT_WRITE, MAP_SHARED, fd, 0);
    close(fd);
    if (is_fresh && !is_new) {
        fd = REAL(open)(path, O_RDONLY | O_CLOEXEC);
        ssize_t length = REAL(pread)(fd, kept->bytes, LONGEST, 0);
        kept->size = length < 0 ? 0 : length;
        memset(kept->marks, KEPT | SURE, kept->size);
        memcpy(kept->sure, kept->bytes, kept->size);
        kept->name = 1;
        close(fd);
    }
    strcpy(files[i].path, path);
    files[i].kept = kept;
    return kept;
}

/* Forgets a file whose name goes, which a loss of power may bring back; where a name that was synced can be brought back already, that one. */
static void let_go(const char *path)
{
    char from[PATH_MAX], to[PATH_MAX], now[PATH_MAX];
    kept_of(path, 0);
    own_file(path, "kept", from);
    own_file(path, "was", to);
    own_file(path, "now", now);
    if (access(to, F_OK) == 0)
        REAL(unlink)(from);
    else if (REAL(rename)(from, to) != 0 || link(path, now) != 0)
        give_up("a name can't be kept");
    int i = place_of(path);
    munmap(files[i].kept, sizeof(struct kept));
    files[i].path[0] = 0;
}

/* Counts a call: what the plan has for it, or "". */
static const char *next_call(const char *what, const char *path, long at, long size)
{
    const char *kind = "";
    for (int i = 0; i < planned && !*kind; i++) {
        int waits = is(events[i].kind, "sync") || is(events[i].kind, "drop");
        if (events[i].by == WITH_ALL && events[i].count > 0 && count >= events[i].at && (!waits || strstr(what, "sync"))) {
            events[i].count--;
            kind = events[i].kind;
        }
    }
    dprintf(calls, "%s %s %ld %ld %s\n", what, path + strlen(below), at, size, kind);
    count++;
    if (is(kind, "hold"))
        kill(getpid(), SIGSTOP);
    return kind;
}

/* The error of a call, or 0. */
static int fault_of(const char *kind)
{
    return is(kind, "eio") || is(kind, "sync") || is(kind, "drop") ? EIO : is(kind, "enospc") ? ENOSPC : is(kind, "eintr") ? EINTR : 0;
}

static void end_process(const char *kind)
{
    if (is(kind, "power") || is(kind, "kill"))
        for (kill(getpid(), SIGKILL);;)
            pause();
}

int open(const char *name, int flags, ...)
{
    va_list more;
    va_start(more, flags);
    mode_t mode = flags & O_CREAT ? va_arg(more, mode_t) : 0;
    va_end(more);
    char path[PATH_MAX];
    begin();
    if ((flags & O_ACCMODE) == O_RDONLY || !find_name(name, path)) {
        end(0, 0);
        return REAL(open)(name, flags, mode);
    }
    const char *kind = next_call("open", path, 0, 0);
    if (fault_of(kind))
        return end(0, fault_of(kind));
    int is_new = access(path, F_OK) != 0, fd = REAL(open)(name, flags, mode), fault = fd < 0 ? errno : 0;
    struct stat stat;
    if (!fault && fstat(fd, &stat) == 0 && S_ISREG(stat.st_mode) && find_fd(fd, path))
        kept_of(path, is_new);
    end_process(kind);
    return end(fd, fault);
}

int mkdir(const char *name, mode_t mode)
{
    char path[PATH_MAX];
    begin();
    const char *kind = find_name(name, path) ? next_call("mkdir", path, 0, 0) : "";
    int fault = fault_of(kind);
    if (!fault && REAL(mkdir)(name, mode) != 0)
        fault = errno;
    else if (!fault && is_below(path))
        kept_of(path, 1);
    end_process(kind);
    return end(0, fault);
}

ssize_t pwrite(int fd, const void *bytes, size_t size, off_t at)
{
    char path[PATH_MAX];
    begin();
    if (!find_fd(fd, path)) {
        end(0, 0);
        return REAL(pwrite)(fd, bytes, size, at);
    }
    struct kept *kept = kept_of(path, 0);
    if (at + size > LONGEST)
        give_up("a file is longer than can be kept");
    const char *kind = next_call("write", path, at, size);
    int fault = fault_of(kind);
    if (fault && size > 0)
        size = fault == EINTR ? 0 : rand_r(&seed) % size;
    else if (is(kind, "short") && size > 1)
        size = 1 + rand_r(&seed) % (size - 1);
    ssize_t done = size ? REAL(pwrite)(fd, bytes, size, at) : 0;
    fault = done < 0 ? errno : fault;
    for (ssize_t i = 0; i < done; i++)
        kept->marks[at + i] = (kept->marks[at + i] & (KEPT | SURE)) | WRITTEN;
    if (done > 0 && at + done > kept->size)
        kept->size = at + done;
    end_process(kind);
    return end(done, fault);
}

/* The names in a directory are kept, whichever process made them, and those that are gone stay so. */
static void keep_names(const char *path)
{
    DIR *all = opendir(own);
    char name[PATH_MAX], place[PATH_MAX];
    size_t size = strlen(path);
    for (struct dirent *one; all && (one = readdir(all));) {
        snprintf(place, sizeof place, "%s/%s", own, one->d_name);
        snprintf(name, sizeof name, "%s%s", below, one->d_name);
        char *c = name + strlen(below), *dot = strrchr(c, '.');
        if (*c != '%' || !dot)
            continue;
        for (*dot = 0; *c; c++)
            *c = *c == '%' ? '/' : *c;
        if (strncmp(name, path, size) != 0 || name[size] != '/' || strchr(name + size + 1, '/'))
            continue;
        if (is(dot + 1, "kept"))
            kept_of(name, 0)->name = 1;
        else
            REAL(unlink)(place);
    }
    closedir(all);
}

/* What was written since the last sync is kept. All that the file reads is sure, but through a handle that only reads: who has it acknowledges
 * nothing. What an earlier sync has lost isn't written. */
static void keep(int fd, struct kept *kept)
{
    static unsigned char now[LONGEST];
    struct stat stat;
    int is_sure = (fcntl(fd, F_GETFL) & O_ACCMODE) != O_RDONLY;
    if (fstat(fd, &stat) != 0 || stat.st_size > LONGEST || REAL(pread)(fd, now, stat.st_size, 0) != stat.st_size)
        give_up("a file can't be read");
    for (off_t i = 0; i < stat.st_size; i++) {
        if (kept->marks[i] & WRITTEN) {
            kept->bytes[i] = now[i];
            kept->marks[i] = (kept->marks[i] & SURE) | KEPT;
        }
        if (is_sure) {
            kept->sure[i] = now[i];
            kept->marks[i] |= SURE;
        }
    }
}

/* What was written since the last sync is lost. */
static void lose(struct kept *kept)
{
    for (unsigned int i = 0; i < kept->size; i++)
        if (kept->marks[i] & WRITTEN)
            kept->marks[i] = (kept->marks[i] & ~WRITTEN) | LOST;
}

/* What was lost is read from the disk from now on: old, new, or anything, and cut anywhere. */
static void drop(const char *path, struct kept *kept)
{
    unsigned int least = 0, most, way = rand_r(&seed) % 5;
    int fd = REAL(open)(path, O_RDWR | O_CLOEXEC);
    for (unsigned int i = 0; i < kept->size; i++)
        least = kept->marks[i] & KEPT ? i + 1 : least;
    most = least + rand_r(&seed) % (kept->size - least + 1);
    for (unsigned int i = 0; i < most; i++) {
        unsigned int one = way < 3 ? way : rand_r(&seed) % (way - 1);
        if (kept->marks[i] & LOST && one == 1 && REAL(pread)(fd, &kept->bytes[i], 1, i) != 1)
            give_up("a file can't be read");
        if (kept->marks[i] & LOST && one == 2)
            kept->bytes[i] = rand_r(&seed) % 2 ? rand_r(&seed) : rand_r(&seed) % 2 ? 0xa5 : 0;
        kept->marks[i] = (kept->marks[i] & SURE) | KEPT;
    }
    memset(kept->marks + most, 0, kept->size - most);
    if (ftruncate(fd, kept->size = most) != 0 || REAL(pwrite)(fd, kept->bytes, most, 0) != most)
        give_up("a file can't be put back");
    close(fd);
}

static int sync_file(int fd, const char *what)
{
    char path[PATH_MAX];
    struct stat stat;
    begin();
    if (!find_fd(fd, path) || fstat(fd, &stat) != 0)
        return end(0, 0);
    const char *kind = next_call(what, path, 0, 0);
    int fault = fault_of(kind), does_nothing = fault == EINTR || is(kind, "lie");
    end_process(kind);
    if (!S_ISREG(stat.st_mode) && !S_ISDIR(stat.st_mode))
        fault = EINVAL;
    else if (S_ISREG(stat.st_mode) && !does_nothing && !fault)
        keep(fd, kept_of(path, 0));
    else if (S_ISREG(stat.st_mode) && !does_nothing)
        lose(kept_of(path, 0));
    if (S_ISREG(stat.st_mode) && is(kind, "drop"))
        drop(path, kept_of(path, 0));
    if (S_ISDIR(stat.st_mode) && !does_nothing && !fault && is(what, "sync"))
        keep_names(path);
    return end(0, fault);
}

int fsync(int fd)
{
    return sync_file(fd, "sync");
}

int fdatasync(int fd)
{
    return sync_file(fd, "datasync");
}

/* Under its new name a file has acknowledged what the file there had. */
int rename(const char *name, const char *to)
{
    char path[PATH_MAX], place[PATH_MAX], from[PATH_MAX], target[PATH_MAX];
    begin();
    if (!find_name(name, path) || !find_name(to, place)) {
        end(0, 0);
        return REAL(rename)(name, to);
    }
    const char *kind = next_call("rename", path, 0, 0);
    int fault = is(kind, "eintr") ? 0 : fault_of(kind);
    if (!fault && access(path, F_OK) == 0) {
        struct kept *kept = kept_of(path, 0), *before = access(place, F_OK) == 0 ? kept_of(place, 0) : 0;
        kept->name = 0;
        kept->size = before && before->size > kept->size ? before->size : kept->size;
        for (int i = 0; i < LONGEST; i++) {
            kept->marks[i] = (kept->marks[i] & ~SURE) | (before ? before->marks[i] & SURE : 0);
            kept->sure[i] = before ? before->sure[i] : 0;
        }
        if (before)
            let_go(place);
        own_file(path, "kept", from);
        own_file(place, "kept", target);
        int i = place_of(path);
        if (i < 0 || REAL(rename)(from, target) != 0)
            give_up("a name can't be kept");
        strcpy(files[i].path, place);
    }
    if (!fault && REAL(rename)(name, to) != 0)
        fault = errno;
    end_process(kind);
    return end(0, fault);
}

int unlink(const char *name)
{
    char path[PATH_MAX];
    begin();
    if (!find_name(name, path)) {
        end(0, 0);
        return REAL(unlink)(name);
    }
    const char *kind = next_call("unlink", path, 0, 0);
    int fault = is(kind, "eintr") ? 0 : fault_of(kind);
    if (!fault && access(path, F_OK) == 0)
        let_go(path);
    if (!fault && REAL(unlink)(name) != 0)
        fault = errno;
    end_process(kind);
    return end(0, fault);
}

int fchmod(int fd, mode_t mode)
{
    char path[PATH_MAX];
    begin();
    const char *kind = find_fd(fd, path) ? next_call("mode", path, 0, 0) : "";
    int fault = fault_of(kind);
    if (!fault && REAL(fchmod)(fd, mode) != 0)
        fault = errno;
    end_process(kind);
    return end(0, fault);
}

/* What the plan has for the next call of a kind that is counted by itself, or "". */
static const char *strike(enum counted by, const char *path)
{
    static atomic_long counts[COUNTED];
    long number = counts[by]++;
    for (int i = 0; i < planned; i++)
        if (events[i].by == by && number >= events[i].at && number < events[i].at + events[i].count) {
            is_inside = 1;
            dprintf(struck, "%s %s %ld\n", events[i].kind, path, number);
            is_inside = 0;
            return events[i].kind;
        }
    return "";
}

/* The same of a call of an open file: only those below the directory count. */
static const char *strike_fd(enum counted by, int fd)
{
    char path[PATH_MAX];
    if (struck < 0 || is_inside || !find_fd(fd, path) || (only && *only && !is(path + strlen(below), only)))
        return "";
    return strike(by, path + strlen(below));
}

ssize_t pread(int fd, void *bytes, size_t size, off_t at)
{
    const char *kind = strike_fd(READS, fd);
    if (is(kind, "read")) {
        errno = EIO;
        return -1;
    }
    return is(kind, "blind") ? 0 : REAL(pread)(fd, bytes, is(kind, "brief") && size ? 1 : size, at);
}

int statx(int fd, const char *restrict path, int flags, unsigned int mask, struct statx *restrict buffer)
{
    if (*strike_fd(LOOKS, fd)) {
        errno = EIO;
        return -1;
    }
    return REAL(statx)(fd, path, flags, mask, buffer);
}

int flock(int fd, int operation)
{
    if (*strike_fd(LOCKS, fd)) {
        errno = ENOLCK;
        return -1;
    }
    return REAL(flock)(fd, operation);
}

int pthread_create(pthread_t *thread, const pthread_attr_t *with, void *(*work)(void *), void *given)
{
    return struck >= 0 && *strike(THREADS, "-") ? EAGAIN : REAL(pthread_create)(thread, with, work, given);
}

void *malloc(size_t size)
{
    static void *(*real)(size_t);
    if (!real)
        real = REAL(malloc);
    if (struck >= 0 && !is_inside && *strike(PIECES, "-")) {
        errno = ENOMEM;
        return 0;
    }
    return real(size);
}

void *realloc(void *old, size_t size)
{
    static void *(*real)(void *, size_t);
    if (!real)
        real = REAL(realloc);
    if (struck >= 0 && !is_inside && *strike(PIECES, "-")) {
        errno = ENOMEM;
        return 0;
    }
    return real(old, size);
}
