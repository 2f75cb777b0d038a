/* floor.c: what the load and the machine leave to any server that tells each line behind a commit of two syncs.
 *
 *   floor PORT SYNC_US one|workers
 *
 * It keeps nothing: each line is answered by the same text, once a commit is over that began behind the line's arrival. A commit sleeps
 * twice SYNC_US. With `one`, one thread reads, commits and answers. With `workers` each connection has a thread of its own, which waits for
 * the committer as vaultd's workers wait for its flusher: one lock, one condition, and the rule of flusher_pace, that a commit waits for as
 * many lines as the one before told, for an eighth of what that took.
 */
#define _GNU_SOURCE
#include <arpa/inet.h>
#include <netinet/tcp.h>
#include <poll.h>
#include <pthread.h>
#include <stdio.h>
#include <stdlib.h>
#include <string.h>
#include <sys/socket.h>
#include <time.h>
#include <unistd.h>

enum { MAX_CONNECTIONS = 200, ROOM = 1 << 14 };
static const char reply[] = "OK held c1 OK session OK saved OK checked in 1\n";
static int sync_us;

static double now(void) {
    struct timespec t;
    clock_gettime(CLOCK_MONOTONIC, &t);
    return t.tv_sec + t.tv_nsec * 1e-9;
}
static void commit(void) { usleep(sync_us), usleep(sync_us); }
static void answer(int link) { if (send(link, reply, sizeof reply - 1, MSG_NOSIGNAL) < 0) close(link); }
static int listening(int port) {
    struct sockaddr_in here = {.sin_family = AF_INET, .sin_port = htons(port), .sin_addr.s_addr = htonl(INADDR_LOOPBACK)};
    int one = 1, at = socket(AF_INET, SOCK_STREAM, 0);
    setsockopt(at, SOL_SOCKET, SO_REUSEADDR, &one, sizeof one);
    if (bind(at, (void *)&here, sizeof here) || listen(at, 128)) perror("listen"), exit(1);
    puts("listening"), fflush(stdout);
    return at;
}
static void quickly(int link) { int one = 1; setsockopt(link, IPPROTO_TCP, TCP_NODELAY, &one, sizeof one); }

static void one_thread(int port) {
    static struct pollfd waits[MAX_CONNECTIONS];
    static char in[ROOM];
    static int due[MAX_CONNECTIONS];
    int count = 1, told = 0;
    waits[0] = (struct pollfd){.fd = listening(port), .events = POLLIN};
    for (double over = 0, took = 0;;) {
        int staged = 0;
        for (int k = 1; k < count; k++) staged += due[k];
        double left = staged == 0 ? 1 : staged >= told ? 0 : over + took / 8 - now();
        struct timespec rest = {.tv_nsec = left <= 0 ? 0 : left >= 1 ? 999999999 : (long)(left * 1e9)};
        if (left > 0) {
            if (ppoll(waits, count, &rest, NULL) <= 0) continue;
            if (waits[0].revents && count < MAX_CONNECTIONS) {
                waits[count] = (struct pollfd){.fd = accept(waits[0].fd, NULL, NULL), .events = POLLIN};
                quickly(waits[count++].fd);
            }
            for (int k = 1; k < count; k++) {
                if (!waits[k].revents) continue;
                ssize_t got = recv(waits[k].fd, in, ROOM, 0);
                if (got <= 0) close(waits[k].fd), waits[k].fd = -1, due[k] = 0;
                else due[k] = in[got - 1] == '\n';
            }
            continue;
        }
        double began = now();
        commit();
        told = staged, over = now(), took = over - began;
        for (int k = 1; k < count; k++) if (due[k]) due[k] = 0, answer(waits[k].fd);
    }
}

static pthread_mutex_t lock = PTHREAD_MUTEX_INITIALIZER;
static pthread_cond_t work = PTHREAD_COND_INITIALIZER, settled = PTHREAD_COND_INITIALIZER;
static long staged, sealed, done;

static void *committer(void *none) {
    double over = 0, took = 0;
    long told = 0;
    pthread_mutex_lock(&lock);
    for (;;) {
        while (staged == sealed) pthread_cond_wait(&work, &lock);
        double until = over + took / 8;
        struct timespec at = {.tv_sec = (time_t)until, .tv_nsec = (long)((until - (time_t)until) * 1e9)};
        while (staged - sealed < told && now() < until) pthread_cond_clockwait(&work, &lock, CLOCK_MONOTONIC, &at);
        told = staged - sealed, sealed = staged;
        pthread_mutex_unlock(&lock);
        double began = now();
        commit();
        over = now(), took = over - began;
        pthread_mutex_lock(&lock);
        done = sealed;
        pthread_cond_broadcast(&settled);
    }
    return none;
}
static void *worker(void *given) {
    int link = (int)(long)given;
    char in[ROOM];
    for (ssize_t got; (got = recv(link, in, ROOM, 0)) > 0;) {
        if (in[got - 1] != '\n') continue;
        pthread_mutex_lock(&lock);
        long mine = ++staged;
        pthread_cond_signal(&work);
        while (done < mine) pthread_cond_wait(&settled, &lock);
        pthread_mutex_unlock(&lock);
        answer(link);
    }
    close(link);
    return NULL;
}
static void many_threads(int port) {
    pthread_t thread;
    int at = listening(port);
    pthread_create(&thread, NULL, committer, NULL);
    for (;;) {
        int link = accept(at, NULL, NULL);
        quickly(link);
        pthread_create(&thread, NULL, worker, (void *)(long)link);
        pthread_detach(thread);
    }
}

int main(int count, char **words) {
    if (count != 4) return fprintf(stderr, "see floor.c\n"), 2;
    sync_us = atoi(words[2]);
    if (words[3][0] == 'o') one_thread(atoi(words[1])); else many_threads(atoi(words[1]));
}
