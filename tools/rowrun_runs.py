#!/usr/bin/env python3
# Needs Python 3.8 or newer, and crates/rowrun/out/rowrun, which `rt ci`, and `rt run` in crates/rowrun, prove and build.
"""Runs rowrun where reading or writing does not go well: what fails is said on standard error, and then there is no `end`; what
only has to wait loses nothing. `.ci/run` runs it, on the program that was proved."""

import fcntl
import os
import subprocess
import sys
import tempfile
import threading
import time
import unittest
from importlib.machinery import SourceFileLoader
from pathlib import Path

HERE = Path(__file__).resolve().parent
ANSWER = SourceFileLoader("answer", str(HERE / "answer")).load_module()
ROWRUN = HERE.parent / "crates" / "rowrun"
RECORDS = (ROWRUN / "stdin").read_bytes()
LINES = (ROWRUN / "stdout").read_bytes()
LONG = 120  # seconds after which a run is taken to hang


def run(**streams):
    """The standard output and the standard error of a run with these streams."""
    done = subprocess.run(ANSWER.way_to_run(), timeout=LONG, stderr=subprocess.PIPE, **streams)
    return done.stdout, done.stderr.decode()


def never_wait(descriptor):
    """A read or a write of it that would wait fails at once (EAGAIN)."""
    fcntl.fcntl(descriptor, fcntl.F_SETFL, fcntl.fcntl(descriptor, fcntl.F_GETFL) | os.O_NONBLOCK)


class Runs(unittest.TestCase):
    def test_whole_input(self):
        self.assertEqual(run(input=RECORDS, stdout=subprocess.PIPE), (LINES, ""))

    def test_no_input(self):
        self.assertEqual(run(input=b"", stdout=subprocess.PIPE), (b"end 0\n", ""))

    def test_input_that_cannot_be_read(self):
        folder = os.open(tempfile.gettempdir(), os.O_RDONLY)
        self.addCleanup(os.close, folder)
        said = run(stdin=folder, stdout=subprocess.PIPE)
        self.assertEqual(said, (b"", "rowrun: standard input: Is a directory\n"))

    @unittest.skipUnless(os.path.exists("/dev/full"), "there is no /dev/full")
    def test_output_that_is_full(self):
        with open("/dev/full", "wb") as full:
            self.assertEqual(run(input=RECORDS, stdout=full)[1], "rowrun: standard output: No space left on device\n")

    def test_output_opened_for_reading(self):
        with open(os.devnull, "rb") as unwritable:
            self.assertEqual(run(input=b"", stdout=unwritable)[1], "rowrun: standard output: Bad file descriptor\n")

    def test_output_that_nobody_reads(self):
        """A signal ends such a program (SIGPIPE), unless it is ignored, as here."""
        receiver, writing = os.pipe()
        self.addCleanup(os.close, writing)
        os.close(receiver)
        said = run(input=RECORDS, stdout=writing, restore_signals=False)
        self.assertEqual(said[1], "rowrun: standard output: Broken pipe\n")

    def test_a_line_comes_before_more_is_sent(self):
        record = bytes([0, 0, 0, 0, 9, 0])
        with subprocess.Popen(ANSWER.way_to_run(), stdin=subprocess.PIPE, stdout=subprocess.PIPE) as running:
            for number in range(1, 4):
                running.stdin.write(record)
                running.stdin.flush()
                self.assertEqual(running.stdout.readline(), b"%d refused 9\n" % number)
            running.stdin.close()
            self.assertEqual(running.stdout.read(), b"end 3\n")

    def test_streams_that_do_not_wait(self):
        """Both ends say EAGAIN again and again: the input comes in pieces, with pauses, and the output is read slowly."""
        reading, sender = os.pipe()
        receiver, writing = os.pipe()
        never_wait(reading)
        never_wait(writing)
        running = subprocess.Popen(ANSWER.way_to_run(), stdin=reading, stdout=writing)
        os.close(reading)
        os.close(writing)
        got = []

        def receive():
            with open(receiver, "rb", buffering=0) as lines:
                for part in iter(lambda: lines.read(2000), b""):
                    got.append(part)
                    time.sleep(0.001)

        slowly = threading.Thread(target=receive)
        slowly.start()
        with open(sender, "wb", buffering=0) as records:
            for begin in range(0, len(RECORDS), 5000):
                records.write(RECORDS[begin : begin + 5000])
                time.sleep(0.002)
        slowly.join(LONG)
        running.wait(LONG)
        self.assertEqual(b"".join(got), LINES)


if __name__ == "__main__":
    if not os.access(ANSWER.PROGRAM, os.X_OK):
        sys.exit(f"there is no {ANSWER.SHOWN}: rt ci proves and builds it, and so does rt run in crates/rowrun")
    unittest.main()
