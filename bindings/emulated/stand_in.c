/*
 * The library's entries on a processor other than x86-64, for tests alone: each passes what it is given to the real
 * library, which runs under an emulator as a process of its own (server.c), and gives back what the real one gave. A
 * program on such a processor cannot link the library itself.
 *
 * RELAY_COMMAND is the program that starts the server; bindings/run sets it.
 */
#define _POSIX_C_SOURCE 200809L

#include "relay.h"

#include <fcntl.h>
#include <pthread.h>
#include <spawn.h>
#include <stdio.h>
#include <stdlib.h>
#include <string.h>
#include <unistd.h>

extern char **environ;

/* One call at a time: the server answers in the order in which it is asked. */
static pthread_mutex_t turn = PTHREAD_MUTEX_INITIALIZER;
static int to_server = -1;
static int from_server = -1;

static void give_up(const char *why) {
    fprintf(stderr, "the stand-in for the x86-64 library: %s\n", why);
    abort();
}

/* Makes a pipe whose ends a started program does not inherit, but for the one it is given as input or output. */
static void make_pipe(int ends[2]) {
    if (pipe(ends) != 0 || fcntl(ends[0], F_SETFD, FD_CLOEXEC) != 0 || fcntl(ends[1], F_SETFD, FD_CLOEXEC) != 0) {
        give_up("no pipe");
    }
}

static void start_server(void) {
    int asking[2];
    int answering[2];
    make_pipe(asking);
    make_pipe(answering);
    posix_spawn_file_actions_t files;
    posix_spawn_file_actions_init(&files);
    posix_spawn_file_actions_adddup2(&files, asking[0], 0);
    posix_spawn_file_actions_adddup2(&files, answering[1], 1);
    char *words[] = {(char *)RELAY_COMMAND, NULL};
    pid_t server;
    if (posix_spawn(&server, RELAY_COMMAND, &files, NULL, words, environ) != 0) {
        give_up("the emulator cannot be started with " RELAY_COMMAND);
    }
    posix_spawn_file_actions_destroy(&files);
    close(asking[0]);
    close(answering[1]);
    to_server = asking[1];
    from_server = answering[0];
}

static void send_bytes(const void *from, size_t bytes) {
    const char *at = (const char *)from;
    while (bytes > 0) {
        ssize_t gone = write(to_server, at, bytes);
        if (gone <= 0) {
            give_up("the emulated library takes no more calls");
        }
        at += gone;
        bytes -= (size_t)gone;
    }
}

static void receive_bytes(void *to, size_t bytes) {
    char *at = (char *)to;
    while (bytes > 0) {
        ssize_t got = read(from_server, at, bytes);
        if (got <= 0) {
            give_up("the emulated library ended in the middle of a call");
        }
        at += got;
        bytes -= (size_t)got;
    }
}

/* Makes the call. The floats come back into `back`, which is null where the entry only reads them. */
static void relay_with_bytes(struct relay_call *call, const double *lent, double *back, const unsigned char *bytes) {
    static double unwritten[RELAY_FLOATS];
    if (call->floats > RELAY_FLOATS || call->bytes > RELAY_BYTES) {
        give_up("more lent than crosses to the emulator");
    }
    pthread_mutex_lock(&turn);
    if (to_server < 0) {
        start_server();
    }
    send_bytes(call, sizeof *call);
    send_bytes(lent, call->floats * sizeof(double));
    send_bytes(bytes, call->bytes);
    receive_bytes(call, sizeof *call);
    receive_bytes(back != NULL ? back : unwritten, call->floats * sizeof(double));
    pthread_mutex_unlock(&turn);
}

static void relay(struct relay_call *call, const double *lent, double *back) { relay_with_bytes(call, lent, back, NULL); }

static struct relay_call call_of(enum relay_entry entry, uint64_t floats) {
    struct relay_call call;
    memset(&call, 0, sizeof call);
    call.entry = entry;
    call.floats = floats;
    return call;
}

double ravelsickle_root(double x) {
    struct relay_call call = call_of(RELAY_ROOT, 0);
    call.given.numbers[0] = x;
    relay(&call, NULL, NULL);
    return call.got.number;
}

double ravelsickle_fused(double x, double y, double z) {
    struct relay_call call = call_of(RELAY_FUSED, 0);
    call.given.numbers[0] = x;
    call.given.numbers[1] = y;
    call.given.numbers[2] = z;
    relay(&call, NULL, NULL);
    return call.got.number;
}

uint64_t ravelsickle_normalize(double *rows, uint64_t floats) {
    struct relay_call call = call_of(RELAY_NORMALIZE, floats);
    relay(&call, rows, rows);
    return call.got.refusal;
}

struct ravelsickle_crossing ravelsickle_solve_2x2(struct ravelsickle_row r, struct ravelsickle_row s) {
    struct relay_call call = call_of(RELAY_SOLVE_2X2, 0);
    call.given.rows[0] = r;
    call.given.rows[1] = s;
    relay(&call, NULL, NULL);
    return call.got.crossing;
}

struct ravelsickle_bounds ravelsickle_lp_1d(const double *pairs, uint64_t floats, struct ravelsickle_line_task task) {
    struct relay_call call = call_of(RELAY_LP_1D, floats);
    call.given.line = task;
    relay(&call, pairs, NULL);
    return call.got.bounds;
}

/* Any of the three solves. */
static union relay_got relay_solve(enum relay_entry entry, double *rows, uint64_t floats, struct ravelsickle_task task) {
    struct relay_call call = call_of(entry, floats);
    call.given.task = task;
    relay(&call, rows, rows);
    return call.got;
}

struct ravelsickle_answer ravelsickle_solve(double *rows, uint64_t floats, struct ravelsickle_task task) {
    return relay_solve(RELAY_SOLVE, rows, floats, task).answer;
}

struct ravelsickle_answer ravelsickle_solve_rows(struct ravelsickle_row *rows, uint64_t rows_count,
                                                 struct ravelsickle_task task) {
    return relay_solve(RELAY_SOLVE_ROWS, (double *)rows, 3 * rows_count, task).answer;
}

struct ravelsickle_solution ravelsickle_lp_2d_incre_max_y(double *rows, uint64_t floats, struct ravelsickle_task task) {
    return relay_solve(RELAY_INCRE_MAX_Y, rows, floats, task).solution;
}

struct ravelsickle_recovered ravelsickle_recover_2d_prefix(const double *rows, uint64_t floats,
                                                           struct ravelsickle_recovery_task task) {
    struct relay_call call = call_of(RELAY_RECOVER, floats);
    call.given.recovery = task;
    relay(&call, rows, NULL);
    return call.got.recovered;
}

struct ravelsickle_reader ravelsickle_reader_start(uint64_t limit) {
    struct relay_call call = call_of(RELAY_READER_START, 0);
    call.given.limit = limit;
    relay(&call, NULL, NULL);
    return call.got.reader;
}

struct ravelsickle_fed ravelsickle_reader_feed(struct ravelsickle_reader reader, unsigned char head[RAVELSICKLE_HEAD],
                                               double rows[RAVELSICKLE_FLOATS], const unsigned char *bytes,
                                               uint64_t bytes_count, unsigned char text[RAVELSICKLE_LINE]) {
    struct relay_call call = call_of(RELAY_READER_FEED, RAVELSICKLE_FLOATS);
    call.given.reader = reader;
    call.bytes = bytes_count;
    memcpy(call.head, head, RAVELSICKLE_HEAD);
    memcpy(call.text, text, RAVELSICKLE_LINE);
    relay_with_bytes(&call, rows, rows, bytes);
    memcpy(head, call.head, RAVELSICKLE_HEAD);
    memcpy(text, call.text, RAVELSICKLE_LINE);
    return call.got.fed;
}

struct ravelsickle_fed ravelsickle_reader_end(struct ravelsickle_reader reader, const unsigned char head[RAVELSICKLE_HEAD],
                                              unsigned char text[RAVELSICKLE_LINE]) {
    struct relay_call call = call_of(RELAY_READER_END, 0);
    call.given.reader = reader;
    memcpy(call.head, head, RAVELSICKLE_HEAD);
    memcpy(call.text, text, RAVELSICKLE_LINE);
    relay(&call, NULL, NULL);
    memcpy(text, call.text, RAVELSICKLE_LINE);
    return call.got.fed;
}
