#!/usr/bin/env python3
# Needs Python 3.8 or newer, and nothing else.
"""Records off a link that cuts them anywhere: one end of a pseudo-terminal, which stands for a serial line, is fed a file
of records in pieces of random size, with pauses between them, and the other end prints each line as soon as its record is
there. The lines are those that rowrun prints for the file.

    python3 bindings/python/link.py crates/rowrun/stdin
"""

import errno
import os
import random
import select
import sys
import time
import tty
from concurrent.futures import ThreadPoolExecutor
from pathlib import Path

from ravelsickle import Link

PORTION = 4096  # bytes asked for at once


def write_whole(descriptor, data):
    """Writes all bytes, in whatever parts they are taken."""
    rest = memoryview(data)
    while rest:
        try:
            rest = rest[os.write(descriptor, rest) :]
        except BlockingIOError:
            select.select([], [descriptor], [])


def write_pieces(link, records):
    """Writes the records in pieces, mostly of some hundreds of bytes, now and then of one. The same ones every time. The
    link ends where this end of it is closed."""
    chance = random.Random(2026)
    rest = memoryview(records)
    try:
        while rest:
            size = 1 if chance.randrange(8) == 0 else chance.randint(1, 600)
            write_whole(link, rest[:size])
            time.sleep(chance.uniform(0, 0.001))
            rest = rest[size:]
    finally:
        os.close(link)


def read_portion(link):
    """What has come, and nothing at the end: a pseudo-terminal whose other end is closed says so by the error EIO. A read
    that is interrupted Python itself tries again."""
    try:
        return os.read(link, PORTION)
    except OSError as wrong:
        if wrong.errno == errno.EIO:
            return b""
        raise


def print_lines(lines):
    """Writes lines to standard output, at once."""
    try:
        if sys.stdout is None:
            raise OSError(errno.EBADF, "it is closed")
        write_whole(sys.stdout.fileno(), "".join(f"{line}\n" for line in lines).encode())
    except OSError as wrong:
        wrong.filename = "standard output"
        raise


def read_records(link):
    """Prints the lines of the records as they come, and then the last lines."""
    try:
        with Link() as records:
            portion = read_portion(link)
            while portion:
                print_lines(records.feed(portion))
                portion = read_portion(link)
        print_lines(records.last)
    finally:
        os.close(link)


def run(name):
    """Runs both ends. Where the printing end stops early it is closed, and the writing end stops too."""
    records = Path(name).read_bytes()
    reading, writing = os.openpty()
    tty.setraw(writing)
    with ThreadPoolExecutor(1) as pool:
        written = pool.submit(write_pieces, writing, records)
        read_records(reading)
        written.result()


def main():
    if len(sys.argv) != 2:
        print("usage: link.py RECORDS", file=sys.stderr)
        return 2
    try:
        run(sys.argv[1])
        return 0
    except OSError as wrong:
        print(f"link.py: {wrong.filename or 'the link'}: {wrong.strerror or wrong}", file=sys.stderr)
        return 1


if __name__ == "__main__":
    sys.exit(main())
