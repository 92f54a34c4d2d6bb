/*
 * Records that come off a link a few bytes at a time: prints each line as soon as its record's last byte is there.
 *
 *   link FILE
 *
 * A child process writes the file's records to a socket in pieces of random size, with pauses; this one reads what has come
 * and feeds it. The lines are those that rowrun prints for the same bytes.
 */
#define _POSIX_C_SOURCE 200809L

#include "ravelsickle.h"

#include <errno.h>
#include <stdio.h>
#include <stdlib.h>
#include <sys/socket.h>
#include <sys/types.h>
#include <sys/wait.h>
#include <time.h>
#include <unistd.h>

static void give_up(const char *what) {
    perror(what);
    exit(1);
}

/* ---- the sending side */

/* Numbers that look random, the same in each run. */
static unsigned random_below(unsigned limit) {
    static uint64_t state = 0x9E3779B97F4A7C15u;
    state ^= state << 13;
    state ^= state >> 7;
    state ^= state << 17;
    return (unsigned)(state >> 33) % limit;
}

static void pause_shortly(void) {
    struct timespec time = {0, (long)random_below(200) * 1000};
    nanosleep(&time, NULL);
}

/* Writes all bytes; a write may take fewer, or be interrupted. */
static void write_piece(int to, const unsigned char *bytes, size_t count) {
    while (count > 0) {
        ssize_t gone = write(to, bytes, count);
        if (gone < 0 && errno != EINTR) {
            give_up("link: writing to the socket");
        }
        if (gone > 0) {
            bytes += gone;
            count -= (size_t)gone;
        }
    }
}

/* Mostly some hundreds of bytes, and now and then a single one. */
static void send_file(int to, const char *name) {
    static unsigned char piece[1000];
    FILE *file = fopen(name, "rb");
    if (file == NULL) {
        give_up(name);
    }
    for (;;) {
        size_t wanted = random_below(8) == 0 ? 1 : 1 + random_below(sizeof piece);
        size_t got = fread(piece, 1, wanted, file);
        if (got == 0) {
            break;
        }
        write_piece(to, piece, got);
        pause_shortly();
    }
    if (ferror(file)) {
        give_up(name);
    }
    fclose(file);
}

/* ---- the reading side */

static struct ravelsickle_link link_in_hand;

static void print_text(size_t printed) {
    if (fwrite(link_in_hand.line, 1, printed, stdout) != printed || fflush(stdout) != 0) {
        give_up("link: standard output");
    }
}

/* Feeds what has come, again and again until all of it is taken: each time up to a record's end. */
static void feed_all(const unsigned char *bytes, size_t count) {
    while (count > 0) {
        struct ravelsickle_step step = ravelsickle_link_feed(&link_in_hand, bytes, count);
        if (step.refusal != RAVELSICKLE_DONE) {
            fprintf(stderr, "link: refusal %u\n", (unsigned)step.refusal);
            exit(1);
        }
        print_text(step.printed);
        bytes += step.taken;
        count -= step.taken;
    }
}

static void print_lines(int from) {
    unsigned char portion[4096];
    ravelsickle_link_start(&link_in_hand);
    for (;;) {
        ssize_t got = read(from, portion, sizeof portion);
        if (got < 0 && errno != EINTR) {
            give_up("link: reading from the socket");
        }
        if (got == 0) {
            break;
        }
        if (got > 0) {
            feed_all(portion, (size_t)got);
        }
    }
    print_text(ravelsickle_link_end(&link_in_hand).printed);
}

int main(int words, char **word) {
    int ends[2];
    int status;
    pid_t sender;
    if (words != 2) {
        fprintf(stderr, "usage: link FILE\n");
        return 2;
    }
    if (socketpair(AF_UNIX, SOCK_STREAM, 0, ends) != 0) {
        give_up("link: socket pair");
    }
    sender = fork();
    if (sender < 0) {
        give_up("link: fork");
    }
    if (sender == 0) {
        close(ends[0]);
        send_file(ends[1], word[1]);
        _exit(0);
    }
    close(ends[1]);
    print_lines(ends[0]);
    return waitpid(sender, &status, 0) == sender && status == 0 ? 0 : 1;
}
