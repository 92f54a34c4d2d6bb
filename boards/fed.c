/*
 * The records of a file, offered to a link in portions that are cut anywhere; prints its lines.
 *
 *   fed FILE
 */
#include "ravelsickle.h"
#include "stack.h"

#include <stdio.h>

enum { START, FEED, END, ENTRIES };
static struct depth depths[ENTRIES] = {{"reader_start", 0}, {"reader_feed", 0}, {"reader_end", 0}};

static struct ravelsickle_link link;

/* 1 to 256 bytes, as a generator of pseudo-random numbers has them. */
static size_t next_portion(void) {
    static uint32_t seed = 1;
    seed = seed * 1664525 + 1013904223;
    return 1 + (seed >> 24);
}

static void keep_and_print(struct ravelsickle_fed left) {
    link.reader = left.reader;
    fwrite(link.line, 1, (size_t)left.printed, stdout);
}

static void feed(const unsigned char *bytes, size_t count) {
    while (count > 0) {
        struct ravelsickle_fed left;
        MEASURED(&depths[FEED],
                 left = ravelsickle_reader_feed(link.reader, link.head, link.rows, bytes, count, link.line));
        keep_and_print(left);
        bytes += left.taken;
        count -= (size_t)left.taken;
    }
}

int main(int count, char **words) {
    static unsigned char portion[256];
    FILE *file = count == 2 ? fopen(words[1], "rb") : NULL;
    struct ravelsickle_fed left;
    size_t got;
    if (file == NULL) {
        fprintf(stderr, "usage: fed FILE, which can be read\n");
        return 2;
    }
    MEASURED(&depths[START], link.reader = ravelsickle_reader_start(RAVELSICKLE_MOST_BYTES));
    while ((got = fread(portion, 1, next_portion(), file)) > 0) {
        feed(portion, got);
    }
    if (ferror(file)) {
        perror(words[1]);
        return 1;
    }
    MEASURED(&depths[END], left = ravelsickle_reader_end(link.reader, link.head, link.line));
    keep_and_print(left);
    tell_depths(depths, ENTRIES);
    return fflush(stdout) == 0 ? 0 : 1;
}
