/* Preloaded into a program by .ci/refused-calls: refuses its calls, one after the other.

   At each call of a swept kind the process makes a child in which the call fails, waits for it, reports what came of it, and goes on
   with the call as if nothing had been. So one run shows what comes of each call's failure. The environment's REFUSE is letters:
   `m` sweeps the allocations, `l` those from the first read of standard input on, `e` those from its end on, each alone, `r` the reads,
   `w` the writes on standard output, `s` those on standard error; `1` makes reads and writes take one byte a call, and `n` gives no
   random bytes. The parent and the children have the open files 100, for the reports, and 101 and 102, which a child writes on in place
   of standard output and standard error. */
#define _GNU_SOURCE
#include <errno.h>
#include <stddef.h>
#include <stdlib.h>
#include <string.h>
#include <sys/mman.h>
#include <sys/syscall.h>
#include <sys/wait.h>
#include <unistd.h>

enum { REPORT = 100, OUT, ERR, FILES = 16, SECONDS = 10, SECONDS_OF_ALL = 120 };

extern void *__libc_malloc(size_t), *__libc_calloc(size_t, size_t), *__libc_realloc(void *, size_t), *__libc_memalign(size_t, size_t);

/* What comes of a call's failure, followed in the reports by the bytes of both outputs. */
struct outcome {
    int kind, call, way;     /* the kind's letter, the number of the call, and how it fails: see the calls below */
    int is_reading;          /* whether standard input had been read when the call was made */
    int goes_on;             /* whether the child made another call of this kind */
    int status, out, err;    /* as wait(2) has it; the lengths of the outputs */
};

static const char *swept = "";
static int is_reading, is_at_end, one_byte;    /* whether standard input has been read, and to its end; whether by one byte a call */
static int kind_refused, way;    /* in a child: the kind of the call that failed, and how */
static int *goes_on;             /* shared by parent and child */

__attribute__((constructor)) static void begin(void) {
    const char *letters = getenv("REFUSE");
    goes_on = mmap(NULL, sizeof *goes_on, PROT_READ | PROT_WRITE, MAP_SHARED | MAP_ANONYMOUS, -1, 0);
    if (!letters || goes_on == MAP_FAILED) _exit(99);
    alarm(SECONDS_OF_ALL);
    one_byte = strchr(letters, '1') != NULL;
    swept = letters;
}

static int is_swept(int kind) {
    return strchr(swept, kind) || (kind == 'm' && ((is_reading && strchr(swept, 'l')) || (is_at_end && strchr(swept, 'e'))));
}

/* Reports what the child wrote, and empties its outputs. */
static void report(struct outcome it) {
    static char text[1 << 18];
    it.out = syscall(SYS_pread64, OUT, text, sizeof text / 2, 0);
    it.err = syscall(SYS_pread64, ERR, text + it.out, sizeof text / 2, 0);
    if (syscall(SYS_write, REPORT, &it, sizeof it) != sizeof it || syscall(SYS_write, REPORT, text, it.out + it.err) != it.out + it.err) _exit(99);
}

static void empty(int file) {
    if (ftruncate(file, 0) || lseek(file, 0, SEEK_SET)) _exit(99);
}

/* Whether this process is to let the call fail. */
static int fails(int kind, int ways) {
    static int calls;
    off_t at[FILES];
    if (kind_refused) {
        *goes_on |= kind == kind_refused;
        return kind == 'm' && kind_refused == 'm' && way == 1;
    }
    if (!is_swept(kind)) return 0;
    calls++;
    for (int next = 0; next < ways; next++) {
        /* No allocation came after the refused one: it is the same if all from it on are refused. */
        if (kind == 'm' && next == 1 && !*goes_on) break;
        *goes_on = 0;
        empty(OUT), empty(ERR);
        for (int file = 0; file < FILES; file++) at[file] = lseek(file, 0, SEEK_CUR);
        pid_t child = _Fork();    /* which takes no locks */
        if (child == 0) {
            dup2(OUT, 1), dup2(ERR, 2), alarm(SECONDS);
            kind_refused = kind, way = next;
            return 1;
        }
        struct outcome it = {.kind = kind, .call = calls, .way = next, .is_reading = is_reading};
        if (child < 0 || waitpid(child, &it.status, 0) != child) _exit(99);
        /* What the child read, the parent has yet to read. */
        for (int file = 0; file < FILES; file++)
            if (at[file] >= 0 && file != 1 && file != 2) lseek(file, at[file], SEEK_SET);
        it.goes_on = *goes_on;
        report(it);
    }
    return 0;
}

/* An allocation fails alone, or with all that follow. */
static int has_memory(void) {
    if (!fails('m', strchr(swept, 'e') ? 1 : 2)) return 1;
    errno = ENOMEM;
    return 0;
}

void *malloc(size_t size) { return has_memory() ? __libc_malloc(size) : NULL; }
void *calloc(size_t count, size_t size) { return has_memory() ? __libc_calloc(count, size) : NULL; }
void *realloc(void *old, size_t size) { return has_memory() ? __libc_realloc(old, size) : NULL; }
void *aligned_alloc(size_t alignment, size_t size) { return has_memory() ? __libc_memalign(alignment, size) : NULL; }
int posix_memalign(void **place, size_t alignment, size_t size) {
    return has_memory() && (*place = __libc_memalign(alignment, size)) ? 0 : ENOMEM;
}

int getentropy(void *bytes, size_t size) {
    if (!strchr(swept, 'n')) return syscall(SYS_getrandom, bytes, size, 0) == (long)size ? 0 : -1;
    errno = ENOSYS;
    return -1;
}

/* A read fails by the device, or is interrupted. */
ssize_t read(int file, void *bytes, size_t size) {
    is_reading |= file == 0;
    if (fails('r', 2)) {
        errno = way ? EINTR : EIO;
        return -1;
    }
    ssize_t count = syscall(SYS_read, file, bytes, one_byte && size ? 1 : size);
    is_at_end |= file == 0 && count == 0 && size;
    return count;
}

/* A write finds no room, is interrupted, or takes nothing. */
ssize_t write(int file, const void *bytes, size_t size) {
    if ((file == 1 && fails('w', 3)) || (file == 2 && fails('s', 3))) {
        errno = way ? EINTR : ENOSPC;
        return way == 2 ? 0 : -1;
    }
    return syscall(SYS_write, file, bytes, one_byte && size ? 1 : size);
}
ssize_t __write(int file, const void *bytes, size_t size) { return write(file, bytes, size); }
