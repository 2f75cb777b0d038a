/* trace.c: LD_PRELOAD that writes down when a server's calls of fsync, pwrite, recv and send begin and end, and on which processor.
 *
 * TRACE names the file, an array of struct call; the first one that began at 0 is behind the last.
 */
#define _GNU_SOURCE
#include <dlfcn.h>
#include <fcntl.h>
#include <sched.h>
#include <stdatomic.h>
#include <stdlib.h>
#include <sys/mman.h>
#include <sys/socket.h>
#include <time.h>
#include <unistd.h>

enum { MAX_CALLS = 1 << 18 };
enum name { FSYNC = 1, PWRITE, RECV, SEND };
struct call { double began, ended; int name, result, processor, unused; };
static struct call *calls;
static atomic_int count;

static double now(void) {
    struct timespec t;
    clock_gettime(CLOCK_MONOTONIC, &t);
    return t.tv_sec * 1e6 + t.tv_nsec * 1e-3;
}

static void __attribute__((constructor)) begin(void) {
    const char *path = getenv("TRACE");
    int file = path ? open(path, O_RDWR | O_CREAT | O_TRUNC, 0600) : -1;
    if (file < 0 || ftruncate(file, MAX_CALLS * sizeof *calls)) return;
    void *there = mmap(NULL, MAX_CALLS * sizeof *calls, PROT_READ | PROT_WRITE, MAP_SHARED | MAP_POPULATE, file, 0);
    calls = there == MAP_FAILED ? NULL : there;
    close(file);
}

static long note(enum name name, double began, long result) {
    int at = calls ? atomic_fetch_add(&count, 1) : MAX_CALLS;
    if (at < MAX_CALLS) calls[at] = (struct call){began, now(), name, result, sched_getcpu(), 0};
    return result;
}

#define REAL(call) static __typeof__(&call) real; if (!real) real = (__typeof__(&call))dlsym(RTLD_NEXT, #call)
int fsync(int file) { REAL(fsync); double began = now(); return note(FSYNC, began, real(file)); }
ssize_t pwrite(int file, const void *bytes, size_t size, off_t at) {
    REAL(pwrite); double began = now(); return note(PWRITE, began, real(file, bytes, size, at));
}
ssize_t recv(int from, void *bytes, size_t size, int flags) {
    REAL(recv); double began = now(); return note(RECV, began, real(from, bytes, size, flags));
}
ssize_t send(int to, const void *bytes, size_t size, int flags) {
    REAL(send); double began = now(); return note(SEND, began, real(to, bytes, size, flags));
}
