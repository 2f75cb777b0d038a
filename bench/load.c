/* load.c: a closed loop of clients, each with one command under way, on one thread.
 *
 *   load PORT FRAMING PLAN CLIENTS SECONDS CYCLES RENEW PAUSE_US
 *
 * FRAMING says where a reply ends: `line` (LF). PLAN has a
 * paragraph per client; a line of it is KIND, tab, EXPECT, tab, SEND. Kinds: `setup` (once per
 * connection), `cycle`, `take` (a cycle step whose reply's third word is kept for {c}), `until`
 * (sent again after PAUSE_US until the reply fits), `leave` (before a connection is renewed, from
 * RENEW steps sent on; 0 is never). A reply fits where it contains EXPECT; one that doesn't ends
 * the run with status 1. In SEND, \r and \n are control bytes and {fresh:N} is N new hex digits.
 * The clock starts once every client is set up and stops after SECONDS or CYCLES. One JSON object
 * on standard output; a cycle's latency runs from its first byte sent to its last reply read, and
 * `least` and `greatest` are the cycles of the worst and the best served client.
 */
#define _GNU_SOURCE
#include <arpa/inet.h>
#include <netinet/tcp.h>
#include <poll.h>
#include <stdint.h>
#include <stdio.h>
#include <stdlib.h>
#include <string.h>
#include <time.h>
#include <unistd.h>

enum { CLIENTS = 256, STEPS = 24, BUFFER = 1 << 14, MAX_CYCLES = 4000000 };
enum kind { SETUP, CYCLE, TAKE, UNTIL, LEAVE };
static const char *kinds[] = {"setup", "cycle", "take", "until", "leave"};
struct step { enum kind kind; char *expect, *send; };
struct client {
    struct step step[STEPS];
    int count, first, at;           /* steps, the first cycle step, the step under way */
    int socket, sent, ready, done;
    double began, wake;             /* wake > 0: a repeated `until` is due then */
    char kept[64], in[BUFFER];
    size_t have;
};
static struct client clients[CLIENTS];
static struct pollfd waits[CLIENTS];
static float took_us[MAX_CYCLES];
static int planned, client_count, port, renew, started, ready_count;
static size_t cycles, repeats, most;
static double pause_s, zero, ends;
static const char *framing;
static uint64_t seed = 0x9e3779b97f4a7c15;

static double now(void) {
    struct timespec t;
    clock_gettime(CLOCK_MONOTONIC, &t);
    return t.tv_sec + t.tv_nsec * 1e-9;
}
static void stop(const char *what, const char *more) {
    fprintf(stderr, "load: %s: %.300s\n", what, more);
    exit(1);
}
static int rising(const void *a, const void *b) {
    float x = *(const float *)a, y = *(const float *)b;
    return (x > y) - (x < y);
}

static void read_plan(const char *path) {
    FILE *file = fopen(path, "r");
    char *line = NULL;
    size_t room = 0;
    if (!file) stop("no plan", path);
    while (getline(&line, &room, file) > 0) {
        struct client *c = &clients[planned];
        line[strcspn(line, "\n")] = 0;
        if (!*line) { planned += c->count > 0; continue; }
        char *kind = strtok(line, "\t"), *expect = strtok(NULL, "\t"), *text = strtok(NULL, "\t");
        if (!text || c->count == STEPS || planned == CLIENTS) stop("bad plan", line);
        struct step *s = &c->step[c->count++];
        for (int k = 0; k < 5; k++) if (!strcmp(kind, kinds[k])) s->kind = k;
        s->expect = strdup(expect), s->send = strdup(text);
        c->first += s->kind == SETUP;
    }
    planned += clients[planned].count > 0;
}

static void send_step(struct client *c) {
    static char out[BUFFER];
    const char *text = c->step[c->at].send;
    size_t n = 0;
    for (const char *t = text; *t;) {
        if (n + 4096 > BUFFER) stop("step too long", text);
        if (t[0] == '\\') out[n++] = t[1] == 'r' ? '\r' : '\n', t += 2;
        else if (!strncmp(t, "{c}", 3)) n += sprintf(out + n, "%s", c->kept), t += 3;
        else if (!strncmp(t, "{fresh:", 7)) {
            for (int count = atoi(t + 7); count > 0; count--) {
                seed ^= seed << 13, seed ^= seed >> 7, seed ^= seed << 17;
                out[n++] = "0123456789abcdef"[seed >> 60];
            }
            t = strchr(t, '}') + 1;
        } else out[n++] = *t++;
    }
    c->sent++;
    if (send(c->socket, out, n, MSG_NOSIGNAL) != (ssize_t)n) stop("send", text);
}

static void join(struct client *c) {
    struct sockaddr_in there = {.sin_family = AF_INET, .sin_port = htons(port), .sin_addr.s_addr = htonl(INADDR_LOOPBACK)};
    int one = 1;
    c->socket = socket(AF_INET, SOCK_STREAM, 0);
    if (connect(c->socket, (void *)&there, sizeof there)) stop("connect", "refused");
    setsockopt(c->socket, IPPROTO_TCP, TCP_NODELAY, &one, sizeof one);
    waits[c - clients] = (struct pollfd){.fd = c->socket, .events = POLLIN};
    c->have = 0, c->at = 0, c->sent = 0;
}

static int whole_reply(struct client *c) {
    c->in[c->have] = 0;
    char *lf = memchr(c->in, '\n', c->have), *body, *field;
    if (!lf) return 0;
    size_t need = lf + 1 - c->in;
    if (framing[0] == 'r' && c->in[0] == '$' && c->in[1] != '-') need += atoi(c->in + 1) + 2;
    if (framing[0] == 'h') {
        if (!(body = strstr(c->in, "\r\n\r\n")) || !(field = strcasestr(c->in, "\nContent-Length:"))) return 0;
        need = body + 4 - c->in + atoi(field + 16);
    }
    return need <= c->have;
}

/* Goes on to the step that is due; a client that is set up waits for the common start. */
static void go_on(struct client *c) {
    if (c->at == c->first) {
        if (!c->ready) { c->ready = 1, ready_count++; return; }
        if (!started) return;
        c->began = now();
    }
    send_step(c);
}

static void take_reply(struct client *c) {
    struct step *s = &c->step[c->at];
    c->have = 0;                    /* with one command under way nothing follows its reply */
    if (!strstr(c->in, s->expect)) {
        if (s->kind != UNTIL) stop(s->send, c->in);
        repeats++, c->wake = now() + pause_s;
        return;
    }
    if (s->kind == TAKE && sscanf(c->in, "%*s %*s %63s", c->kept) != 1) stop("no third word", c->in);
    int more = ++c->at < c->count && c->step[c->at].kind != LEAVE;
    if (!more && s->kind != LEAVE) {
        if (cycles < MAX_CYCLES) took_us[cycles++] = (now() - c->began) * 1e6, c->done++;
        if (!renew || c->sent < renew) c->at = c->first;
    }
    if (c->at == c->count) close(c->socket), join(c);
    go_on(c);
}

static void turn(double at) {
    double next = at + 0.1;
    for (struct client *c = clients; c < clients + client_count; c++) {
        if (c->wake > 0 && c->wake <= at) c->wake = 0, send_step(c);
        else if (c->wake > 0 && c->wake < next) next = c->wake;
    }
    struct timespec rest = {.tv_nsec = (next - at) * 1e9};
    if (ppoll(waits, client_count, &rest, NULL) <= 0) return;
    for (struct client *c = clients; c < clients + client_count; c++) {
        if (!waits[c - clients].revents) continue;
        ssize_t got = recv(c->socket, c->in + c->have, BUFFER - 1 - c->have, 0);
        if (got <= 0) stop("connection ended at", c->step[c->at].send);
        c->have += got;
        if (whole_reply(c)) take_reply(c);
    }
}

int main(int count, char **words) {
    if (count != 9) return fprintf(stderr, "see load.c\n"), 2;
    port = atoi(words[1]), framing = words[2], client_count = atoi(words[4]), most = atoll(words[6]);
    renew = atoi(words[7]), pause_s = atof(words[8]) * 1e-6;
    read_plan(words[3]);
    if (client_count < 1 || client_count > planned) stop("clients", words[4]);
    for (struct client *c = clients; c < clients + client_count; c++) join(c), go_on(c);
    for (ends = now() + 60; now() < ends && ready_count < client_count;) turn(now());
    if (ready_count < client_count) stop("setup", "not done in 60 s");
    started = 1, zero = now(), ends = zero + atof(words[5]);
    for (struct client *c = clients; c < clients + client_count; c++) go_on(c);
    while (now() < ends && cycles < most && cycles < MAX_CYCLES) turn(now());
    double seconds = now() - zero;
    int least = clients[0].done, greatest = least;
    for (struct client *c = clients; c < clients + client_count; c++) {
        if (c->done < least) least = c->done;
        if (c->done > greatest) greatest = c->done;
    }
    if (!cycles) stop("cycles", "none was done");
    qsort(took_us, cycles, sizeof *took_us, rising);
    printf("{\"rate\": %.1f, \"cycles\": %zu, \"p50_us\": %.0f, \"p99_us\": %.0f, \"least\": %d, \"greatest\": %d, \"repeats\": %zu}\n",
           cycles / seconds, cycles, took_us[cycles / 2], took_us[cycles * 99 / 100], least, greatest, repeats);
    return 0;
}
