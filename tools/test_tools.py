"""Tests of the tools: python3 -m unittest discover tools

They need Python 3.8 and neither rt nor rowrun, for which scripts stand in; where rt is there, the compiler of its kit builds code
for the check of instructions. The round trip of a whole stream takes crates/rowrun/stdin and its stdout, or the files that the
environment variables ROWRUN_RECORDS and ROWRUN_ANSWERS name.
"""

import command  # first: it says so where Python is too old

import dataclasses
import importlib.machinery
import importlib.util
import math
import os
import pathlib
import platform
import random
import re
import shutil
import signal
import stat
import struct
import subprocess
import sys
import tempfile
import threading
import time
import unittest
import xml.etree.ElementTree

import answers
import draw
import frames
import instructions
import plane
import records

HERE = pathlib.Path(__file__).resolve().parent
ROOT = HERE.parent
ROWRUN = ROOT / "crates" / "rowrun"
SPACE = "{http://www.w3.org/2000/svg}"
EXAMPLE_LINE = "1 point 3FF0000000000000 401C000000000000 6 5 28"  # what rowrun answers to example.txt


def load(name, folder=HERE):
    """A command of a directory whose file has no ending, as a module."""
    loader = importlib.machinery.SourceFileLoader(name, str(folder / name))
    module = importlib.util.module_from_spec(importlib.util.spec_from_loader(name, loader))
    sys.modules[name] = module  # where its classes look for it
    loader.exec_module(module)
    return module


answer = load("answer")
house = load("house")
plot = load("plot", ROOT / "compare")


def stream_file(variable, name):
    """A file of the stream that rowrun is tested with, or None."""
    path = pathlib.Path(os.environ.get(variable) or ROWRUN / name)
    return path if path.is_file() else None


def run(name, *arguments, given=b""):
    """Runs a command of this directory to its end."""
    return subprocess.run([sys.executable, str(HERE / name), *map(str, arguments)], input=given, capture_output=True)


def hexed(number):
    """A float as rowrun prints it."""
    return struct.pack(">d", number).hex().upper()


def body(*rows, front=(1e-9, 10.0, 0.0, 1e6), skip=0, allowance=1000000, normalise=0):
    """The body of a record of kind 1, written here a second time, on its own."""
    packed = struct.pack("<4d", *front) + struct.pack("<QQB", skip, allowance, normalise)
    return packed + b"".join(struct.pack("<3d", *row) for row in rows)


def record(kind, content):
    return struct.pack("<IH", len(content), kind) + content


def pack(text):
    return records.write_records(records.parse_text(text.encode(), "text"))


class Packing(unittest.TestCase):
    def test_defaults(self):
        self.assertEqual(pack("lp\n1 2 3\n"), record(1, body((1, 2, 3))))

    def test_no_rows(self):
        self.assertEqual(pack("lp"), record(1, body()))

    def test_every_key_in_any_order(self):
        text = "lp normalise=1 allowance=18446744073709551615 start=-2.5,inf scale=3 skip=7 tolerance=0.25\n"
        wanted = body(front=(0.25, 3.0, -2.5, math.inf), skip=7, allowance=2**64 - 1, normalise=1)
        self.assertEqual(pack(text), record(1, wanted))

    def test_comments_blank_lines_commas_and_line_ends(self):
        text = "\ufeff# a comment\r\n\r\n  lp  # another\r\n1, -2 ,3e0 # third\r\n\t4 5\t6\r\n1,2,3"
        self.assertEqual(pack(text), record(1, body((1, -2, 3), (4, 5, 6), (1, 2, 3))))

    def test_forms_of_numbers(self):
        text = "lp\n0x1.8p3 -0X1P-2 =bff0000000000000\n1_000 -inf -0.0\n5e-324 .5 +1E2\n"
        rows = [(12.0, -0.25, -1.0), (1000.0, -math.inf, -0.0), (5e-324, 0.5, 100.0)]
        self.assertEqual(pack(text), record(1, body(*rows)))

    def test_plain_nan_and_exact_bits(self):
        packed = pack("lp\nnan =7FF0000000000001 =FFFFFFFFFFFFFFFF\n")
        wanted = struct.pack("<3Q", 0x7FF8000000000000, 0x7FF0000000000001, 0xFFFFFFFFFFFFFFFF)
        self.assertEqual(packed[-24:], wanted)

    def test_raw_and_tail(self):
        text = "raw kind=65535 body=00fF10\nraw body= kind=0\ntail 0102\n"
        self.assertEqual(pack(text), b"\x03\0\0\0\xff\xff\x00\xff\x10" + b"\0\0\0\0\0\0" + b"\x01\x02")

    def test_nothing_packs_to_nothing(self):
        self.assertEqual(pack(""), b"")
        self.assertEqual(pack("# only a comment\n\n"), b"")
        self.assertEqual(records.format_text(records.read_records(b"")), "")

    def test_sample_is_two_bodies_of_97_bytes(self):
        data = pack((HERE / "sample.txt").read_text())
        first = record(1, body((1, 1, 2), (-1, 1, 0), allowance=1000))
        second = record(1, body((0, 1, 1), (0, -1, -2), allowance=1000))
        self.assertEqual(data, first + second)
        self.assertEqual((data[0], data[103], len(data)), (97, 97, 206))


class Errors(unittest.TestCase):
    # Each text with the line that is wrong and what is said of it.
    CASES = [
        ("1 2 3", 1, "a row needs a line 'lp' before it"),
        ("raw kind=2 body=\n1 2 3", 2, "a row needs a line 'lp' before it"),
        ("lp\n\n1 2", 3, "a row is three numbers a b c, here stand 2"),
        ("lp\n1 2 3 4", 2, "a row is three numbers a b c, here stand 4"),
        ("lp\n1, 2 3", 2, "a row is three numbers a b c, here stand 2"),
        ("lp\n1,,3", 2, "'' is not a number"),
        ("lp\n1 two 3", 2, "'two' is not a number"),
        ("lp\n1 2 =3FF", 2, "'=3FF' is not a number"),
        ("lp\n1 2 =3FF000000000000_", 2, "'=3FF000000000000_' is not a number"),
        ("lp\n1 2 0x1p5000", 2, "'0x1p5000' is not a number"),
        ("lp\n1 2 0xzz", 2, "'0xzz' is not a number"),
        ("lp scale", 1, "'scale' is not key=value"),
        ("lp size=1", 1, "unknown key 'size', known are tolerance, scale, start, skip, allowance, normalise"),
        ("lp skip=1 skip=1", 1, "'skip' is given twice"),
        ("lp tolerance=", 1, "'' is not a number"),
        ("lp start=1", 1, "start is two numbers x,y, not '1'"),
        ("lp start=1,2,3", 1, "start is two numbers x,y, not '1,2,3'"),
        ("lp skip=-1", 1, "'-1' is not a whole number from 0 to 18446744073709551615"),
        ("lp allowance=18446744073709551616", 1, "'18446744073709551616' is not a whole number from 0 to 1844674407"),
        ("lp allowance=1e3", 1, "'1e3' is not a whole number from 0 to 18446744073709551615"),
        ("lp normalise=2", 1, "'2' is not a whole number from 0 to 1"),
        ("raw kind=65536 body=", 1, "'65536' is not a whole number from 0 to 65535"),
        ("raw kind=1", 1, "raw needs both kind=K and body=HEX"),
        ("raw kind=1 body=0", 1, "the bytes are not pairs of hex digits"),
        ("tail", 1, "tail needs its bytes as one word of hex digits"),
        ("tail 0g", 1, "the bytes are not pairs of hex digits"),
        ("tail 00\n# fine\nlp", 3, "nothing can follow a tail"),
    ]

    def test_each_message(self):
        for text, line, what in self.CASES:
            with self.subTest(text=text), self.assertRaises(records.TextError) as caught:
                pack(text)
            self.assertTrue(str(caught.exception).startswith(f"text:{line}: {what}"), caught.exception)

    def test_bytes_that_are_no_text(self):
        with self.assertRaisesRegex(records.TextError, "^x:2: not text in UTF-8$"):
            records.parse_text(b"lp\n1 2 \xff\n", "x")

    def test_a_body_too_long_for_its_length(self):
        problem = records.Problem(rows=range((2**32 - 1 - 49) // 24))
        with self.assertRaisesRegex(ValueError, "^more rows than a record can hold$"):
            records.add_row(problem, (0, 0, 0))


class RoundTrips(unittest.TestCase):
    def check(self, data):
        text = records.format_text(records.read_records(data))
        self.assertEqual(records.write_records(records.parse_text(text.encode(), "text")), data)
        return text

    def test_the_stream_of_rowrun(self):
        path = stream_file("ROWRUN_RECORDS", "stdin")
        if path is None:
            self.skipTest("there is no crates/rowrun/stdin, and ROWRUN_RECORDS names no file")
        data = path.read_bytes()
        self.assertGreater(len(records.read_records(data)), 100)
        self.check(data)

    def test_random_problems(self):
        source = random.Random(1)
        for _ in range(300):
            rows = source.choice([0, 1, 2, 9])
            # Any bits are a float: half of the words are NaNs, infinities or nearly so.
            words = [source.getrandbits(64) | source.choice([0, 0x7FF0000000000000]) for _ in range(6 + 3 * rows)]
            content = struct.pack("<6QB", *words[:6], source.getrandbits(1)) + struct.pack(f"<{3 * rows}Q", *words[6:])
            text = self.check(record(1, content))
            self.assertEqual(text.splitlines()[1].split()[0], "lp")

    def test_random_streams(self):
        source = random.Random(2)
        for _ in range(300):
            data = b""
            for _ in range(source.randrange(4)):
                size = source.choice([0, 48, 49, 50, 73])
                content = source.choice([body((1, 2, 3)), source.getrandbits(8 * size + 1).to_bytes(size + 1, "little")[:size]])
                data += record(source.choice([0, 1, 1, 2, 65535]), content)
            self.check(data[: len(data) - source.choice([0, 0, 1, 30])])

    def test_what_is_not_well_formed_is_raw(self):
        for kind, content in [(2, body()), (1, body()[:-1]), (1, body() + b"0"), (1, body(normalise=2)), (1, b""), (1, bytes(1)), (1, bytes(25))]:
            text = self.check(record(kind, content))
            self.assertEqual(text, f"# record 1\nraw kind={kind} body={content.hex().upper()}\n")

    def test_every_cut(self):
        data = record(1, body()) + record(1, body((1, 2, 3)))
        for end in range(56, len(data)):
            self.assertTrue(self.check(data[:end]).endswith(f"# record 2\ntail {data[55:end].hex().upper()}\n"))

    def test_text_is_readable(self):
        text = records.format_text(records.read_records(record(1, body((1, -0.0, math.nan), (0.1, 1e300, math.inf)))))
        header = "lp tolerance=1e-09 scale=10.0 start=0.0,1000000.0 skip=0 allowance=1000000 normalise=0"
        self.assertEqual(text, f"# record 1\n{header}\n1.0 -0.0 nan\n0.1 1e+300 inf\n")


class Commands(unittest.TestCase):
    def setUp(self):
        directory = tempfile.TemporaryDirectory()
        self.addCleanup(directory.cleanup)
        self.directory = pathlib.Path(directory.name)

    def file(self, name, content):
        path = self.directory / name
        path.write_bytes(content)
        return path

    def test_files_in_order_and_standard_input(self):
        one, two = self.file("one", b"lp\n1 2 3"), self.file("two", b"raw kind=7 body=AA")
        done = run("records.py", "pack", one, two)
        self.assertEqual((done.returncode, done.stdout, done.stderr), (0, record(1, body((1, 2, 3))) + record(7, b"\xaa"), b""))
        self.assertEqual(run("records.py", "pack", given=b"lp\n1 2 3").stdout, record(1, body((1, 2, 3))))
        self.assertEqual(run("records.py", "unpack", given=record(7, b"\xaa")).stdout, b"# record 1\nraw kind=7 body=AA\n")

    def test_empty_input(self):
        for verb in ("pack", "unpack"):
            done = run("records.py", verb)
            self.assertEqual((done.returncode, done.stdout, done.stderr), (0, b"", b""))

    def test_an_error_writes_nothing(self):
        good, bad = self.file("good", b"lp\n1 2 3"), self.file("bad", b"lp\n1 2")
        done = run("records.py", "pack", good, bad)
        message = f"{bad}:2: a row is three numbers a b c, here stand 2\n"
        self.assertEqual((done.returncode, done.stdout, done.stderr.decode()), (2, b"", message))

    def test_a_tail_ends_all_files(self):
        done = run("records.py", "pack", self.file("one", b"tail 00"), self.file("two", b"\nlp"))
        self.assertEqual((done.returncode, done.stdout), (2, b""))
        self.assertTrue(done.stderr.decode().endswith("two:2: nothing can follow a tail\n"))

    def test_a_missing_file(self):
        for verb in ("pack", "unpack"):
            done = run("records.py", verb, self.directory / "none")
            self.assertEqual((done.returncode, done.stdout), (2, b""))
            self.assertEqual(done.stderr.decode(), f"{self.directory / 'none'}: No such file or directory\n")

    def start(self, *words, **streams):
        """Starts a command of this directory."""
        return subprocess.Popen([sys.executable, str(HERE / words[0]), *map(str, words[1:])], stderr=subprocess.PIPE, **streams)

    def test_input_that_comes_in_pieces(self):
        data = record(1, body((1, 2, 3)))
        with self.start("records.py", "unpack", stdin=subprocess.PIPE, stdout=subprocess.PIPE) as process:
            for piece in (data[:3], data[3:40], data[40:]):
                process.stdin.write(piece)
                process.stdin.flush()
                time.sleep(0.05)
            process.stdin.close()
            self.assertEqual(process.stdout.read(), run("records.py", "unpack", given=data).stdout)

    def test_reads_that_are_interrupted_or_have_nothing_yet(self):
        data = record(1, body((1, 2, 3))) * 2000  # more than a pipe holds
        reader, writer = os.pipe()
        os.set_blocking(reader, False)
        with self.start("records.py", "unpack", stdin=reader, stdout=subprocess.PIPE) as process, open(writer, "wb") as sink:
            os.close(reader)
            said = []
            taking = threading.Thread(target=lambda: said.append(process.stdout.read()))
            taking.start()
            for place in range(0, len(data), 60000):
                time.sleep(0.05)
                process.send_signal(signal.SIGSTOP)
                process.send_signal(signal.SIGCONT)
                sink.write(data[place : place + 60000])
                sink.flush()
            sink.close()
            taking.join()
        self.assertEqual(said[0], run("records.py", "unpack", given=data).stdout)
        self.assertEqual(process.returncode, 0)

    def test_a_signal_during_a_read(self):
        reader, writer = os.pipe()
        rings = []
        before = signal.signal(signal.SIGALRM, lambda *_: rings.append(os.write(writer, b"x") if len(rings) < 3 else os.close(writer)))
        self.addCleanup(signal.signal, signal.SIGALRM, before)
        self.addCleanup(signal.setitimer, signal.ITIMER_REAL, 0)
        signal.setitimer(signal.ITIMER_REAL, 0.05, 0.05)
        try:
            self.assertEqual(command.read_all(reader), b"xxx")
        finally:
            signal.setitimer(signal.ITIMER_REAL, 0)
            os.close(reader)

    def test_output_that_is_taken_slowly(self):
        data = record(1, body((1, 2, 3))) * 5000
        reader, writer = os.pipe()
        os.set_blocking(writer, False)
        stream = self.file("stream", data)
        with self.start("records.py", "unpack", stream, stdout=writer) as process, open(reader, "rb") as source:
            os.close(writer)
            taken = b""
            while True:
                portion = source.read1(50000)
                if not portion:
                    break
                taken += portion
                time.sleep(0.005)
        self.assertEqual((process.returncode, taken), (0, run("records.py", "unpack", stream).stdout))

    def test_closed_output(self):
        large = self.file("large", b"lp\n" + b"1 2 3\n" * 20000)
        small = self.file("small", b"lp\n1 2 3")  # fails only when it is flushed
        drawing = ["draw.py", HERE / "sample.txt", self.file("a", SAMPLE_ANSWERS)]
        for words in (["records.py", "pack", large], ["records.py", "pack", small], drawing, ["draw.py", "--help"]):
            reader, writer = os.pipe()
            os.close(reader)  # nobody reads: the first write fails
            with self.start(*words, stdout=writer) as process:
                os.close(writer)
                self.assertEqual(process.stderr.read(), b"", words)
            self.assertIn(process.returncode, (0, 1) if "--help" in words else (1,), words)

    def test_output_that_cannot_be_written(self):
        small = self.file("small", b"lp\n1 2 3")
        with open("/dev/full", "wb") as full, self.start("records.py", "pack", small, stdout=full) as process:
            self.assertEqual((process.stderr.read(), process.wait()), (b"standard output: No space left on device\n", 1))
        for closed, wanted in ((1, b"standard output: it is closed\n"), (0, b"input: standard input is closed\n")):
            words = ["records.py", "pack"] + ([small] if closed == 1 else [])
            with self.start(*words, stdout=subprocess.DEVNULL, preexec_fn=lambda: os.close(closed)) as process:
                self.assertEqual(process.stderr.read(), wanted)
            self.assertNotEqual(process.returncode, 0)

    def test_messages_never_go_to_standard_output(self):
        bad = self.file("bad", b"lp\n1 2")
        with self.start("records.py", "pack", bad, stdout=subprocess.PIPE, preexec_fn=lambda: os.close(2)) as process:
            self.assertEqual((process.stdout.read(), process.wait()), (b"", 2))

    def test_stopped_by_hand(self):
        """Whoever runs the tests in the background has SIGINT ignored, and what they start would inherit that."""
        heeded = lambda: signal.signal(signal.SIGINT, signal.SIG_DFL)
        with self.start("records.py", "pack", stdin=subprocess.PIPE, stdout=subprocess.PIPE, preexec_fn=heeded) as process:
            time.sleep(0.5)
            process.send_signal(signal.SIGINT)
            self.assertEqual((process.wait(), process.stderr.read()), (130, b""))

    def test_drawing_by_text_and_by_records(self):
        answers = self.file("answers", SAMPLE_ANSWERS)
        stream = self.file("sample.bin", pack((HERE / "sample.txt").read_text()))
        by_text = run("draw.py", HERE / "sample.txt", answers, "--record", 2)
        by_records = run("draw.py", stream, answers, "--record", 2)
        self.assertEqual((by_text.returncode, by_text.stderr), (0, b""))
        self.assertIn(b"Record 2: the highest y that meets 2 rows", by_text.stdout)
        self.assertEqual(by_records.stdout, by_text.stdout)
        self.assertEqual(run("draw.py", stream, answers, "--record", 2, "--as", "text").returncode, 2)
        piped = run("draw.py", stream, "-", "--record", 2, given=SAMPLE_ANSWERS)
        self.assertEqual(piped.stdout, by_text.stdout)

    def test_what_cannot_be_drawn(self):
        sample = HERE / "sample.txt"
        for answers, number, message in [
            (SAMPLE_ANSWERS, 3, f"{sample}: no record 3, it holds 2"),
            (SAMPLE_ANSWERS, 0, f"{sample}: no record 0, it holds 2"),
            (b"1 nothing - - 0\nend 1\n", 2, "-: no line for record 2"),
            (b"1 point 3FF 3FF 0 1 7\n", 1, "-:1: not a line of rowrun: '1 point 3FF 3FF 0 1 7'"),
            (b"1 nothing - - 0\n2 level 7FF8000000000000 - - 1\n", 2, "-:2: a coordinate is NaN"),
            (b"1 nothing 2 - 0\n", 1, "the answer names a row that record 1 does not have"),
        ]:
            done = run("draw.py", sample, "-", "--record", number, given=answers)
            self.assertEqual((done.returncode, done.stdout, done.stderr.decode()), (2, b"", message + "\n"))


SAMPLE_ANSWERS = (
    b"1 point 3FF0000000000000 3FF0000000000000 0 1 7\n2 point 0000000000000000 4000000000000000 1 - 23\nend 2\n"
)


class Svg:
    """A picture read back, with its own scale taken from the ticks."""

    def __init__(self, text):
        self.root = xml.etree.ElementTree.fromstring(text)
        self.by_id = {element.get("id"): element for element in self.root.iter() if element.get("id")}
        self.captions = [element.text for element in self.of_class("caption")]

    def of_class(self, name):
        return [element for element in self.root.iter() if name in (element.get("class") or "").split()]

    def ticks(self, axis):
        """Pairs of a tick's number and its pixel; a label of the y axis stands 4 pixels under its tick."""
        shift = 4 if axis == "y" else 0
        return [(float(tick.text), float(tick.get(axis)) - shift) for tick in self.of_class(f"{axis}-tick")]

    def plane(self, axis, pixel):
        """The coordinate at a pixel, by the first and last tick."""
        (low, start), (high, end) = self.ticks(axis)[0], self.ticks(axis)[-1]
        return low + (pixel - start) / (end - start) * (high - low)

    def ends(self, name):
        """The two ends of a line, in the plane."""
        line = self.by_id[name]
        return [(self.plane("x", float(line.get("x" + n))), self.plane("y", float(line.get("y" + n)))) for n in "12"]

    def corners(self, element):
        """The corners of a polygon, in the plane."""
        pixels = [map(float, pair.split(",")) for pair in element.get("points").split()]
        return [(self.plane("x", x), self.plane("y", y)) for x, y in pixels]

    def words(self):
        return [element.text for element in self.root.iter(f"{SPACE}text")]


def picture(rows, line, **front):
    """The picture of a problem with these rows and this line of rowrun without its number."""
    content = records.read_records(record(1, body(*rows, **front)))[0]
    return Svg(draw.draw(1, content, answers.read_line(f"1 {line}")[1]))


def point(x, y, rest="- - 7"):
    return f"point {hexed(x)} {hexed(y)} {rest}"


def inside(corners, x, y):
    """Whether a point lies in a polygon, by the number of edges to the right of it."""
    edges = zip(corners, corners[1:] + corners[:1])
    return sum((a[1] > y) != (b[1] > y) and x < a[0] + (y - a[1]) / (b[1] - a[1]) * (b[0] - a[0]) for a, b in edges) % 2


class Drawing(unittest.TestCase):
    S3 = [(1, 1, 2), (-1, 1, 0)]
    S5 = [(-1, 0, 0), (1, 0, 1)]

    def assert_readable(self, drawn, limit):
        """Ticks on both axes, within the limit, in order and not too many."""
        for axis in "xy":
            values = [value for value, _ in drawn.ticks(axis)]
            self.assertTrue(3 <= len(values) <= 16, values)
            self.assertEqual(values, sorted(set(values)))
            self.assertLessEqual(max(map(abs, values)), limit)

    def test_s3_point_stands_where_the_ticks_say(self):
        drawn = picture(self.S3, point(1, 1, "0 1 7"))
        mark = drawn.by_id["answer"]
        self.assertEqual(mark.tag, SPACE + "circle")
        self.assertAlmostEqual(drawn.plane("x", float(mark.get("cx"))), 1, delta=0.01)
        self.assertAlmostEqual(drawn.plane("y", float(mark.get("cy"))), 1, delta=0.01)
        width, height = drawn.root.get("width"), drawn.root.get("height")
        self.assertEqual((width, drawn.root.get("viewBox")), ("640", f"0 0 {width} {height}"))

    def test_s3_boundaries_are_the_rows(self):
        drawn = picture(self.S3, point(1, 1, "0 1 7"))
        for number, (a, b, c) in enumerate(self.S3):
            ends = drawn.ends(f"row-{number}")
            self.assertGreater(math.dist(*ends), 1)
            for x, y in ends:
                self.assertAlmostEqual(a * x + b * y, c, delta=0.02)

    def test_s3_sides(self):
        drawn = picture(self.S3, point(1, 1, "0 1 7"))
        feasible = drawn.corners(drawn.by_id["feasible"])
        self.assertTrue(inside(feasible, 1, 0.9) and inside(feasible, 0.5, 0.4))
        self.assertFalse(inside(feasible, 1, 1.1) or inside(feasible, 0.3, 0.4) or inside(feasible, 1.6, 0.5))
        sides = [drawn.corners(side) for side in drawn.by_id["excluded"]]
        self.assertEqual(len(sides), 2)
        self.assertTrue(inside(sides[0], 1.1, 1.1) and not inside(sides[0], 0.8, 0.8))
        self.assertTrue(inside(sides[1], 0.4, 0.8) and not inside(sides[1], 0.8, 0.4))

    def test_active_rows_are_heavier_and_named(self):
        drawn = picture(self.S3 + [(0, -1, 0)], point(1, 1, "0 1 7"))
        weights = [float(drawn.by_id[f"row-{number}"].get("stroke-width")) for number in range(3)]
        self.assertEqual([element.get("id") for element in drawn.of_class("active")], ["row-0", "row-1"])
        self.assertGreater(min(weights[:2]), 2 * weights[2])
        # Painted last, so that they lie on top, and in two colours.
        self.assertEqual([element.get("id") for element in drawn.of_class("row")], ["row-2", "row-0", "row-1"])
        self.assertEqual(len({element.get("stroke") for element in drawn.of_class("row")}), 3)
        self.assertLessEqual({"row 0", "row 1", "row 2", "(1, 1)"}, set(drawn.words()))

    def test_captions(self):
        one = (hexed(1), hexed(-2.5))
        for line, wanted in [
            (f"point {one[0]} {one[1]} 0 1 7", "point x = 1, y = -2.5; active rows 0 and 1; 7 readings"),
            (f"level {one[1]} - - 1", "level y = -2.5, x is open; no active rows; 1 reading"),
            (point(1 / 3, 2e6 / 3), "point x = 0.333333, y = 666667; no active rows; 7 readings"),
            ("refused 3", "refused 3: the answer takes more readings than the allowance"),
        ]:
            self.assertEqual(picture(self.S3, line).captions[0], wanted)

    def test_active_rows_as_inequalities(self):
        drawn = picture([(-1, 0.5, 2), (0, -3, 1e24)], point(0, 0, "0 1 7"))
        self.assertEqual(drawn.captions[1:3], ["row 0: -x + 0.5 y \u2264 2", "row 1: -3 y \u2264 1e24"])

    def test_level_is_horizontal_and_across_vertical(self):
        (x1, y1), (x2, y2) = picture([(0, 2, 6)], f"level {hexed(3)} - - 1").ends("answer")
        self.assertGreater(x2 - x1, 1)
        self.assertAlmostEqual(y1, 3, delta=0.02)
        self.assertAlmostEqual(y2, 3, delta=0.02)
        (x1, y1), (x2, y2) = picture([(2, 0, 6)], f"across {hexed(3)} - - 1").ends("answer")
        self.assertGreater(abs(y2 - y1), 1)
        self.assertAlmostEqual(x1, 3, delta=0.02)
        self.assertAlmostEqual(x2, 3, delta=0.02)

    def test_nothing_and_refusals_have_no_mark(self):
        for line in ("nothing - - 4", "refused 3"):
            drawn = picture(self.S3, line)
            self.assertFalse({"answer", "far-answer"} & set(drawn.by_id))
            self.assertIn("row-1", drawn.by_id)

    def test_rows_without_boundary(self):
        rows = self.S3 + [(math.nan, 1, 2), (1, 1, math.inf), (0, 0, -5), (0, -0.0, 0)]
        drawn = picture(rows, point(1, 1, "0 1 7"))
        reasons = "rows 2 to 3 (nan or inf), rows 4 to 5 (a = b = 0)"
        self.assertIn("No boundary, not drawn: " + reasons, drawn.captions)
        self.assertEqual(len(drawn.of_class("row")), 2)
        self.assertIn("feasible", drawn.by_id)

    def test_a_row_that_normalising_makes_zeros(self):
        rows = self.S3 + [(1e200, 0, 1), (1e-200, 0, 1)]
        normalised = picture(rows, point(1, 1, "0 1 7"), normalise=1)
        self.assertIn("No boundary, not drawn: rows 2 to 3 (normalised to zeros)", normalised.captions)
        self.assertNotIn("row-2", normalised.by_id)
        plain = picture(rows, point(1, 1, "0 1 7"))
        self.assertIn("row-2", plain.by_id)
        self.assertIn("Boundary outside the picture: row 3", plain.captions)

    def test_rows_apart_are_listed_apart(self):
        drawn = picture([(0, 0, 1), (1, 1, 2), (0, 0, 1)], "nothing - - 9")
        self.assertIn("No boundary, not drawn: row 0 (a = b = 0), row 2 (a = b = 0)", drawn.captions)

    def test_a_long_answer_is_broken_into_lines(self):
        line = point(-1.23456e-138, -6.54321e-201, f"- 1 {2**64 - 1}")
        captions = picture(self.S3, line).captions
        self.assertLessEqual(max(map(len, captions)), draw.LINE_LETTERS)
        self.assertLessEqual(len(captions[0]), draw.BOLD_LETTERS)
        self.assertIn(str(2**64 - 1), captions[1])

    def test_names_stand_on_the_excluded_side(self):
        for row, above in [((0, 1, 3), True), ((0, -1, 3), False)]:
            drawn = picture([row], "nothing - - 1")
            name = next(element for element in drawn.root.iter(f"{SPACE}text") if element.text == "row 0")
            self.assertEqual(float(name.get("y")) < float(drawn.by_id["row-0"].get("y1")), above)

    def test_labels_of_the_example_keep_apart(self):
        problem = records.parse_text((HERE / "example.txt").read_bytes(), "example")[0]
        drawn = Svg(draw.draw(1, problem, answers.read_line("1 " + point(1, 7, "6 5 28"))[1]))
        names = [f"row {number}" for number in range(7)] + ["(1, 7)"]
        places = {text.text: text for text in drawn.root.iter(f"{SPACE}text") if text.text in names}
        boxes = [(float(text.get("x")), float(text.get("y")), 3.5 * len(words)) for words, text in places.items()]
        self.assertEqual(len(boxes), 8)
        left, top, right, bottom = draw.BOX
        for place, (x, y, half) in enumerate(boxes):
            self.assertTrue(left < x - half and x + half < right and top < y - 11 and y < bottom)
            for other_x, other_y, other_half in boxes[:place]:
                self.assertTrue(abs(x - other_x) > half + other_half or abs(y - other_y) > 12)

    def test_the_axes_are_darker_than_the_grid(self):
        drawn = picture(self.S3, point(1, 1, "0 1 7"))
        upright, flat = [line for line in drawn.by_id["axes"].iter(f"{SPACE}line") if line.get("stroke")]
        self.assertAlmostEqual(drawn.plane("x", float(upright.get("x1"))), 0, delta=0.01)
        self.assertAlmostEqual(drawn.plane("y", float(flat.get("y1"))), 0, delta=0.01)

    def test_content_tells_text_from_records(self):
        self.assertFalse(draw.looks_like_records(b"lp\r\n\t1 2 3\n"))
        self.assertTrue(draw.looks_like_records(record(1, body())))
        self.assertEqual(draw.find_record(b"lp\n", "x", 1, "records"), records.Tail(b"lp\n"))

    def test_an_active_row_without_boundary(self):
        drawn = picture([(math.nan, 1, 2), (1, 0, 1)], point(1, 2, "0 1 7"))
        self.assertIn("row 0: nan x + 1 y \u2264 2", drawn.captions)

    def test_only_rows_without_boundary(self):
        drawn = picture([(math.nan, 1, 2), (0, 0, 1)] * 200, point(5, 7))
        self.assertIn("answer", drawn.by_id)
        start = "No boundary, not drawn: row 0 (nan or inf), row 1 (a = b = 0), and 398 more"
        self.assertEqual(drawn.captions[1], start)
        self.assertLessEqual(max(map(len, drawn.captions)), draw.LINE_LETTERS)

    def test_huge_answers_become_arrows(self):
        for x, y, words in [
            (0.0, 1e24, "(0, 1e24)"),
            (0.0, 999999.0, "(0, 999999)"),
            (-1e300, math.inf, "(-1e300, inf)"),
            (1.0, -math.inf, "(1, -inf)"),
        ]:
            drawn = picture(self.S5, point(x, y))
            self.assertIn("far-answer", drawn.by_id)
            self.assertNotIn("answer", drawn.by_id)
            self.assertIn(words, drawn.words())
            self.assert_readable(drawn, 3)

    def test_an_arrow_points_to_the_answer(self):
        for x, y, across, up in [(0.0, 1e24, 0, 1), (0.5, -1e24, 0, -1), (1e24, 0.0, 1, 0), (-1e24, -1e24, -1, -1)]:
            arrow = picture(self.S5, point(x, y)).by_id["far-answer"]
            tail, neck = ([float(arrow[0].get(axis + end)) for axis in "xy"] for end in "12")
            tip = [float(part) for part in arrow[1].get("points").split()[0].split(",")]
            for start, end in ((tail, neck), (neck, tip)):
                self.assertEqual(math.copysign(1, end[0] - start[0]) if end[0] != start[0] else 0, across)
                self.assertEqual(math.copysign(1, start[1] - end[1]) if end[1] != start[1] else 0, up)

    def test_one_far_row_or_crossing_does_not_spoil_the_view(self):
        for far in [(0, 1, 1e24), (1e-24, 1, 1e9), (-1, 1 + 1e-15, 5), (1e-300, 0, 1e300), (0, 1, 1e308)]:
            drawn = picture(self.S3 + [far], point(1, 1, "0 1 7"))
            self.assert_readable(drawn, 15)
            self.assertIn("answer", drawn.by_id)

    def test_an_answer_a_little_off_the_rows_is_in_view(self):
        for x, y in [(0.5, 5.0), (4.0, -3.0)]:
            mark = picture(self.S5, point(x, y)).by_id["answer"]
            left, top, right, bottom = draw.BOX
            self.assertTrue(left < float(mark.get("cx")) < right and top < float(mark.get("cy")) < bottom)

    def test_few_far_crossings_without_feasible_part(self):
        rows = [(0, 1, 1), (0, -1, -2), (1, 0, 1), (-1, 0, 0), (1, 1e-5, 1.5)]
        self.assert_readable(picture(rows, "nothing - - 9"), 20)

    def test_rows_closer_than_their_numbers_can_tell(self):
        drawn = picture([(1, 0, 1e15 + 2), (-1, 0, -1e15), (0, 1, 1e8)], point(1e15, 1e8))
        self.assert_readable(drawn, 2e15)
        self.assertLessEqual(max(len(tick.text) for tick in drawn.of_class("x-tick")), 12)
        low, high = plane.roomy(1e15, 1e15 + 2, 1.0)
        self.assertGreater(high - low, 9e9)

    def test_sizes_far_from_one(self):
        for size in (1e-295, 1e-60, 1e-5, 1e7, 1e200):
            rows = [(a, b, c * size) for a, b, c in self.S3]
            drawn = picture(rows, point(size, size, "0 1 7"))
            self.assert_readable(drawn, 3 * size)
            self.assertAlmostEqual(drawn.plane("y", float(drawn.by_id["answer"].get("cy"))) / size, 1, delta=0.02)

    def test_axes_of_different_size(self):
        drawn = picture([(0, 1, 250000), (1, 0, 5), (-1, 0, 5), (0, -1, 0)], point(-5, 250000, "0 2 9"))
        self.assertLess(max(value for value, _ in drawn.ticks("x")), 20)
        self.assertGreater(max(value for value, _ in drawn.ticks("y")), 200000)

    def test_random_extremes_are_drawn_inside_the_picture(self):
        source = random.Random(3)
        for _ in range(300):
            numbers = [source.choice([0.0, 1.0, -2.0, 10.0 ** source.uniform(-320, 308), -1e308, 5e-324]) for _ in range(14)]
            drawn = picture([numbers[at : at + 3] for at in range(0, 12, 3)], point(*numbers[12:], "3 0 9"))
            for element in drawn.root.iter():
                for name in ("x", "y", "x1", "x2", "y1", "y2", "cx", "cy"):
                    self.assertTrue(-1 <= float(element.get(name, 0)) <= 641, numbers)

    def test_no_text_is_clipped(self):
        shares = {None: (0, 1), "middle": (0.5, 0.5), "end": (1, 0)}  # of a text, left and right of its place
        long = point(-1.23456e-138, -6.54321e-201, f"- 1 {2**64 - 1}")
        for rows, line in [(self.S3, point(1, 1, "0 1 7")), ([(0, 0, 1)] * 99 + [(1, 1, math.nan), (1e-300, 1, -1e300)], long), ([], "refused 10")]:
            drawn = picture(rows, line)
            width, height = float(drawn.root.get("width")), float(drawn.root.get("height"))
            size = {element: above.get("font-size") for above in drawn.root.iter() for element in above}
            for text in drawn.root.iter(f"{SPACE}text"):
                letter = 0.6 * float(text.get("font-size") or size[text])
                before, after = (share * letter * len(text.text) for share in shares[text.get("text-anchor")])
                self.assertTrue(0 <= float(text.get("x")) - before and float(text.get("x")) + after <= width, text.text)
                self.assertTrue(2 * letter <= float(text.get("y")) <= height - letter, text.text)

    def test_no_rows(self):
        drawn = picture([], "nothing - - 0")
        self.assertEqual(drawn.of_class("row"), [])
        self.assert_readable(drawn, 3)

    def test_infeasible_rows_leave_nothing(self):
        drawn = picture([(0, 1, 1), (0, -1, -2)], point(0, 2, "1 - 23"))
        self.assertNotIn("feasible", drawn.by_id)
        self.assertIn("No point in view meets every row.", drawn.captions)

    def test_a_feasible_part_without_area_is_still_drawn(self):
        drawn = picture([(1, 0.1, 1), (-1, -0.1, -1), (0, 1, 2)], point(0.8, 2, "0 2 9"))
        self.assertIn("feasible", drawn.by_id)

    def test_a_record_that_is_no_problem(self):
        for content, refusal in ((records.Raw(9, b"<&>"), 9), (records.Raw(1, b""), 10), (records.Tail(b"1"), 8)):
            drawn = Svg(draw.draw(4, content, answers.read_line(f"4 refused {refusal}")[1]))
            self.assertIn("Record 4: not a problem", drawn.words())
            self.assertNotIn("feasible", drawn.by_id)

    def test_many_rows(self):
        turns = [2 * math.pi * number / 2048 for number in range(2048)]
        rows = [(math.cos(turn), math.sin(turn), 1 + 1000 * math.cos(turn)) for turn in turns]
        begin = time.monotonic()
        drawn = picture(rows, point(1000, 1, "512 511 9"))
        self.assertLess(time.monotonic() - begin, 10)  # two or three seconds, with room for a slow machine
        self.assertEqual(len(drawn.of_class("row")), 2048)
        named = {words for words in drawn.words() if words.startswith("row ") and ":" not in words}
        self.assertEqual(named, {"row 512", "row 511"})
        feasible = drawn.corners(drawn.by_id["feasible"])
        for x, y in feasible:
            self.assertAlmostEqual(math.hypot(x - 1000, y), 1, delta=0.02)
        self.assertGreater(max(x for x, _ in feasible) - min(x for x, _ in feasible), 1.9)

    def test_all_of_twelve_rows_are_named_but_not_thirteen(self):
        for count in (12, 13):
            rows = [(math.cos(number), math.sin(number), 1) for number in range(count)]
            words = picture(rows, "nothing - - 9").words()
            self.assertEqual(sum(text.startswith("row ") for text in set(words)), 12 if count == 12 else 0)

    def test_every_record_of_the_stream(self):
        stream, printed = stream_file("ROWRUN_RECORDS", "stdin"), stream_file("ROWRUN_ANSWERS", "stdout")
        if stream is None or printed is None:
            self.skipTest("there is no crates/rowrun/stdin with stdout, and the environment names no files")
        lines = printed.read_bytes()
        for number, content in enumerate(records.read_records(stream.read_bytes()), 1):
            with self.subTest(record=number):
                answer = answers.find_answer(lines, "answers", number)
                drawn = Svg(draw.draw(number, content, answer))
                marks = {"answer", "far-answer"} & set(drawn.by_id)
                self.assertEqual(len(marks), answer.kind in ("point", "level", "across"))


class Example(unittest.TestCase):
    """tools/example.txt, its answer and its picture, docs/example.svg."""

    def setUp(self):
        self.text = (HERE / "example.txt").read_bytes()

    def drawn(self):
        problem = draw.find_record(self.text, "example.txt", 1, "text")
        return draw.draw(1, problem, answers.find_answer(EXAMPLE_LINE.encode(), "answers", 1))

    def test_the_picture_is_what_is_drawn_today(self):
        kept = (ROOT / "docs" / "example.svg").read_text("utf-8")
        self.assertEqual(kept, self.drawn(), "draw it again: tools/answer tools/example.txt docs/example.svg")

    def test_the_picture_shows_everything(self):
        drawn = Svg(self.drawn())
        self.assertEqual(drawn.by_id["answer"].tag, SPACE + "circle")
        self.assertIn("feasible", drawn.by_id)
        self.assertEqual([element.get("id") for element in drawn.of_class("active")], ["row-5", "row-6"])
        self.assertEqual(len(drawn.of_class("row")), 7)
        self.assertEqual(drawn.captions[0], "point x = 1, y = 7; active rows 6 and 5; 28 readings")
        self.assertIn("the points that meet every row", drawn.captions)

    def test_rowrun_answers_so(self):
        if not os.access(answer.PROGRAM, os.X_OK):
            self.skipTest("there is no crates/rowrun/out/rowrun")
        try:
            words = answer.way_to_run()
        except answer.Failure as wrong:
            self.skipTest(str(wrong))
        done = subprocess.run(words, input=pack(self.text.decode()), stdout=subprocess.PIPE)
        self.assertEqual((done.returncode, done.stdout.decode()), (0, f"{EXAMPLE_LINE}\nend 1\n"))

    def test_the_example_is_feasible_with_two_active_rows(self):
        problem = records.parse_text((HERE / "example.txt").read_bytes(), "example")[0]
        rows = problem.float_rows()
        self.assertTrue(5 <= len(rows) <= 8)
        excess = [a * 1 + b * 7 - c for a, b, c in rows]  # at (1, 7), its highest point
        self.assertLessEqual(max(excess), 0)
        self.assertEqual([number for number, value in enumerate(excess) if value == 0], [5, 6])
        # Row 5 holds y down to the left of it, row 6 to the right.
        self.assertTrue(rows[5][0] < 0 < rows[6][0] and min(rows[5][1], rows[6][1]) > 0)


BENCH = b"""kernel / original         own entry   collecting
planner-8                      2.00         9.00
planner-32                     0.50         9.00
planner-128                    1.00         9.00
normalize-pairs-8              3.00         9.00
recovery                       1.22         9.00
kernel / machine             a call
root, many                    48.29
"""


def plotted(*panels):
    """The picture of panels, each a heading with what the bench printed."""
    return Svg(plot.plot([(heading, plot.read_ratios(data, "bench")) for heading, data in panels]))


def marks(drawn, name):
    """Where the marks of a line stand, and the corners of the line itself."""
    group = drawn.by_id[name]
    where = [re.fullmatch(r"translate\((\S+) (\S+)\)", mark.get("transform")).groups() for mark in group.iter(f"{SPACE}path")]
    corners = [pair.split(",") for pair in group.find(f"{SPACE}polyline").get("points").split()]
    return [tuple(map(float, pair)) for pair in where], [tuple(map(float, pair)) for pair in corners]


class Plot(unittest.TestCase):
    WORDS = ["normalising, no pairs", "normalising rows that are normalised already", "normalising, rows in \u00b1 pairs", "not normalising"]

    def test_marks_stand_where_the_scales_say(self):
        """The plot goes from (66, 46) to (868, 376). Across it shows log2 8 - 1/4 = 2.75 to log2 128 + 1/4 = 7.25, and up 0 to 3.5:
        the greatest ratio is 3, and by 0.5 the next line above it."""
        drawn = plotted(("", BENCH))
        points, corners = marks(drawn, "panel-1-planner")
        wanted = [
            (66 + 802 * 0.25 / 4.5, 376 - 330 * 2 / 3.5),  # 8 rows, 2.00
            (66 + 802 * 2.25 / 4.5, 376 - 330 * 0.5 / 3.5),  # 32 rows, 0.50
            (66 + 802 * 4.25 / 4.5, 376 - 330 * 1 / 3.5),  # 128 rows, 1.00
        ]
        self.assertEqual([(round(x), round(y)) for x, y in wanted], [(111, 187), (467, 329), (823, 282)])
        self.assertEqual(points, [(round(x, 2), round(y, 2)) for x, y in wanted])
        self.assertEqual(corners, points)
        self.assertEqual(marks(drawn, "panel-1-normalize-pairs")[0], [(110.56, 93.14)])  # 376 - 330 * 3 / 3.5
        even = drawn.of_class("even")[0]
        self.assertEqual([even.get(name) for name in ("x1", "y1", "x2", "y2")], ["66.00", "281.71", "868.00", "281.71"])

    def test_ticks(self):
        drawn = plotted(("", BENCH))
        self.assertEqual(drawn.ticks("x"), [(8, 110.56), (32, 467.0), (128, 823.44)])
        self.assertEqual([value for value, _ in drawn.ticks("y")], [0, 0.5, 1, 1.5, 2, 2.5, 3, 3.5])
        crowded = plotted(("", b"".join(b"a-%d 0.3\n" % rows for rows in (8, 1000, 1001, 1002, 2048))))
        self.assertEqual([value for value, _ in crowded.ticks("x")], [8, 1000, 2048])  # written where there is room
        self.assertEqual(crowded.ticks("y")[-1][0], 1.2)  # 1 is in view always

    def test_words(self):
        drawn = plotted(("", BENCH))
        self.assertEqual(drawn.captions, self.WORDS[2:])
        self.assertIn("as long as the original", drawn.words())
        self.assertIn("rows", drawn.words())
        self.assertEqual(drawn.of_class("heading"), [])
        said = "normalising, rows in \u00b1 pairs: 3 at 8 rows; not normalising: 2 at 8 rows, 1 at 128 rows."
        self.assertEqual(drawn.root.find(f"{SPACE}desc").text, said)
        every = "".join(f"{family}-8 1.0\n" for family in ("planner", "other", "normalize-pairs", "normalized", "normalize-single"))
        self.assertEqual(plotted(("", every.encode())).captions, self.WORDS + ["other"])

    def test_families_look_different_and_always_the_same(self):
        looks = set()
        names = list(plot.FAMILIES) + [f"other{number}" for number in range(26)]
        drawn = plotted(("", "".join(f"{name}-8 1.0\n" for name in names).encode()))
        for name in names:
            mark = next(drawn.by_id[f"panel-1-{name}"].iter(f"{SPACE}path"))
            looks.add((mark.get("fill"), mark.get("d")))
        self.assertEqual(len(looks), 30)
        for data in (b"planner-8 1", b"new-8 1\nplanner-8 1"):
            mark = next(plotted(("", data)).by_id["panel-1-planner"].iter(f"{SPACE}path"))
            self.assertEqual((mark.get("fill"), mark.get("d")), (plot.COLOURS[3], plot.MARKS[3]))

    def test_two_panels(self):
        """They share both scales: the second has 2,048 rows and the ratio 5, and the first has room for them too."""
        drawn = plotted(("Arm", BENCH), ("x86-64 <&>", b"planner-2048 5.00\nmine-8 1.00\n"))
        self.assertEqual([heading.text for heading in drawn.of_class("heading")], ["Arm", "x86-64 <&>"])
        self.assertEqual([float(heading.get("x")) for heading in drawn.of_class("heading")], [252, 682])  # of 66 to 438 and 496 to 868
        self.assertEqual(marks(drawn, "panel-1-planner")[0][0], (round(66 + 372 * 0.25 / 8.5, 2), round(402 - 330 * 2 / 6, 2)))
        self.assertEqual(marks(drawn, "panel-2-planner")[0], [(round(496 + 372 * 8.25 / 8.5, 2), round(402 - 330 * 5 / 6, 2))])
        self.assertEqual(len(drawn.of_class("even")), 2)
        self.assertEqual(drawn.captions, self.WORDS[2:] + ["mine"])
        self.assertNotIn("panel-1-mine", drawn.by_id)
        self.assertEqual(drawn.root.get("width"), "900")
        self.assertEqual(plotted(*[("A", BENCH)] * 4).root.get("width"), "1200")

    def test_the_name_of_the_line_keeps_off_the_others(self):
        """Lines that leave it room everywhere, on the left alone, and only under the one at 1."""
        for data, side, right in [
            (b"a-8 2\na-2048 2\n", -1, True),
            (b"a-8 3\na-64 3\na-65 1.1\na-2048 1.1\n", -1, False),
            (b"a-8 1.05\na-2048 1.05\n", 1, True),
        ]:
            drawn = plotted(("", data))
            y = float(drawn.of_class("even")[0].get("y1"))
            label = next(text for text in drawn.root.iter(f"{SPACE}text") if text.text == plot.EVEN)
            self.assertEqual((math.copysign(1, float(label.get("y")) - 4.5 - y), float(label.get("x")) > 467), (side, right), data)

    def test_no_text_is_clipped(self):
        shares = {None: (0, 1), "middle": (0.5, 0.5), "end": (1, 0)}  # of a text, left and right of its place
        odd = "\n".join([f"{'long' * 60}-1 1", f"{'mean' * 11}-1000000 1000000", "a-1000 0"]).encode()
        for panels in [[("", BENCH)], [("M" * 300, BENCH)] * 3, [("name", odd)], [("name", odd)] * 3]:
            drawn = plotted(*panels)
            width, height = float(drawn.root.get("width")), float(drawn.root.get("height"))
            size = {element: above.get("font-size") for above in drawn.root.iter() for element in above}
            for text in drawn.root.iter(f"{SPACE}text"):
                letter = 0.6 * float(text.get("font-size") or size[text])
                before, after = (share * letter * len(text.text) for share in shares[text.get("text-anchor")])
                self.assertTrue(0 <= float(text.get("x")) - before and float(text.get("x")) + after <= width, text.text)
                self.assertTrue(2 * letter <= float(text.get("y")) <= height - letter, text.text)

    def test_names_that_need_escaping(self):
        drawn = plotted(("<b>&amp;\"", 'a<b>&"\'-8 1\n\x01\ufffe-8 1\n'.encode()))
        self.assertEqual(drawn.captions, ['a<b>&"\'', "\ufffd\ufffd"])
        self.assertIn('panel-1-a<b>&"\'', drawn.by_id)
        self.assertEqual([heading.text for heading in drawn.of_class("heading")], ['<b>&amp;"'])

    # What was printed, and what is said of it behind the name of the file.
    WRONG = [
        (b"", ": no line has a case of the bench and its ratio"),
        (b"kernel / original  own entry\nrecovery  1.22 1.24\nroot, many  48.29\n", ": no line has a case of the bench and its ratio"),
        (b"\nplanner-8 fast 1\n", ":2: 'fast' is not a number"),
        (b"planner-8   answers alike, 256 instances\n", ":1: 'answers' is not a number"),
        (b"planner-8 -0.01 1\n", ":1: '-0.01' is not a ratio from 0 to 1000000"),
        (b"planner-8 1\nplanner-16 inf 1\n", ":2: 'inf' is not a ratio from 0 to 1000000"),
        (b"planner-8 1\nplanner-16 NaN 1\n", ":2: 'NaN' is not a ratio from 0 to 1000000"),
        (b"planner-8 1000001\n", ":1: '1000001' is not a ratio from 0 to 1000000"),
        (b"planner-8\n", ":1: 'planner-8' has no ratio"),
        (b"planner-0 1\n", ":1: 'planner-0' is not of 1 to 1000000 rows"),
        (b"planner-1000001 1\n", ":1: 'planner-1000001' is not of 1 to 1000000 rows"),
        (b"planner-" + b"9" * 5000 + b" 1\n", f":1: 'planner-{'9' * 5000}' is not of 1 to 1000000 rows"),
        (b"planner-8 1\nplanner-16 1\nplanner-8 1\n", ":3: planner of 8 rows for the second time"),
        (b"planner-8 1\n\xff\n", ":2: not text in UTF-8"),
    ]

    def test_what_cannot_be_drawn(self):
        for content, message in self.WRONG:
            with self.assertRaises((ValueError, records.TextError)) as caught:
                plot.read_ratios(content, "bench")
            self.assertEqual(str(caught.exception), f"bench{message}")

    def test_forms_of_lines(self):
        data = b"\xef\xbb\xbfplanner-8 1.5\r\n\r\n  a-b-08   2 not read\nplanner- 3\n-8 4\nroot-two, 5\nplanner-16 1e0"
        self.assertEqual(plot.read_ratios(data, "bench"), {"planner": {8: 1.5, 16: 1.0}, "a-b": {8: 2.0}})


class PlotCommand(unittest.TestCase):
    NAME = "../compare/plot"

    def setUp(self):
        directory = tempfile.TemporaryDirectory()
        self.addCleanup(directory.cleanup)
        self.directory = pathlib.Path(directory.name)

    def file(self, name, content):
        path = self.directory / name
        path.write_bytes(content)
        return path

    def test_a_file_and_standard_input(self):
        bench = self.file("bench", BENCH)
        wanted = plot.plot([("", plot.read_ratios(BENCH, "bench"))]).encode()
        for done in (run(self.NAME, bench), run(self.NAME, given=BENCH), run(self.NAME, "-", given=BENCH), run(self.NAME, f"={bench}")):
            self.assertEqual((done.returncode, done.stdout, done.stderr), (0, wanted, b""))

    def test_panels_by_name(self):
        bench = self.file("a=b", BENCH)
        done = run(self.NAME, f"Arm={bench}", "\u00df <2>=-", given=BENCH)
        self.assertEqual((done.returncode, done.stderr), (0, b""))
        self.assertEqual([heading.text for heading in Svg(done.stdout).of_class("heading")], ["Arm", "\u00df <2>"])
        raw = subprocess.run([sys.executable, HERE / self.NAME, b"\xff\x01=-"], input=BENCH, capture_output=True)
        self.assertEqual([heading.text for heading in Svg(raw.stdout).of_class("heading")], ["\ufffd\ufffd"])

    def test_what_cannot_be_drawn(self):
        for content, message in Plot.WRONG[:4]:
            bad = self.file("bad", content)
            for done, name in ((run(self.NAME, bad), bad), (run(self.NAME, f"A={bad}"), bad), (run(self.NAME, given=content), "standard input")):
                self.assertEqual((done.returncode, done.stdout, done.stderr.decode()), (2, b"", f"{name}{message}\n"))

    def test_files_that_cannot_be_read(self):
        good, none = self.file("good", BENCH), self.directory / "none"
        for words in ([none], [f"A={none}"], [f"A={good}", f"B={none}"]):
            done = run(self.NAME, *words)
            self.assertEqual((done.returncode, done.stdout, done.stderr.decode()), (2, b"", f"{none}: No such file or directory\n"))
        self.assertEqual(run(self.NAME, self.directory).stderr.decode(), f"{self.directory}: Is a directory\n")

    def test_wrong_usage(self):
        for words, message in [
            (["--what"], "unrecognized arguments: --what"),
            (["A=x", "y"], "of more than one file each is NAME=FILE, and 'y' is not"),
            (["A="], "'A=' names no file"),
            ([""], "'' names no file"),
            (["A=-", "B=-"], "only one of the files can be standard input"),
        ]:
            done = run(self.NAME, *words)
            said = f"usage: plot [-h] [FILE | NAME=FILE ...]\nplot: error: {message}\n"
            self.assertEqual((done.returncode, done.stdout, done.stderr.decode()), (2, b"", said))

    def test_help(self):
        done = run(self.NAME, "--help")
        self.assertEqual((done.returncode, done.stderr), (0, b""))
        self.assertIn(b"usage: plot [-h] [FILE | NAME=FILE ...]", done.stdout)

    def test_closed_output(self):
        bench = self.file("bench", BENCH)
        for words in ([bench], ["--help"]):
            reader, writer = os.pipe()
            os.close(reader)  # nobody reads: the first write fails
            done = subprocess.run([sys.executable, HERE / self.NAME, *words], stdout=writer, stderr=subprocess.PIPE)
            os.close(writer)
            self.assertEqual(done.stderr, b"", words)
            self.assertIn(done.returncode, (0, 1) if "--help" in words else (1,), words)
        with open("/dev/full", "wb") as full:
            done = subprocess.run([sys.executable, HERE / self.NAME, bench], stdout=full, stderr=subprocess.PIPE)
        self.assertEqual((done.returncode, done.stderr), (1, b"standard output: No space left on device\n"))


class Bench(unittest.TestCase):
    """docs/bench.svg, and the files that it is drawn from."""

    COMMAND = ["compare/plot", "Arm=docs/bench-arm.txt"]

    def test_the_picture_is_what_is_drawn_today(self):
        done = subprocess.run(self.COMMAND, cwd=ROOT, capture_output=True)
        self.assertEqual((done.returncode, done.stderr), (0, b""))
        kept = (ROOT / "docs" / "bench.svg").read_text("utf-8")
        self.assertEqual(kept, done.stdout.decode("utf-8"), f"draw it again: {' '.join(self.COMMAND)} >docs/bench.svg")

    def test_the_picture_shows_every_case(self):
        drawn = Svg((ROOT / "docs" / "bench.svg").read_text("utf-8"))
        self.assertEqual(drawn.captions, Plot.WORDS)
        for number in range(1, len(self.COMMAND)):
            for family in plot.FAMILIES:
                self.assertEqual(len(marks(drawn, f"panel-{number}-{family}")[0]), 7, family)


class Versions(unittest.TestCase):
    TOOLS = ["answer", "draw.py", "frames.py", "house", "instructions.py", "records.py", "test_tools.py", "../compare/plot"]

    def test_an_older_python_is_told_what_is_needed(self):
        for name in self.TOOLS:
            older = f"import runpy, sys; sys.version_info = (3, 7, 17); sys.argv = [{name!r}]; runpy.run_path({name!r}, run_name='__main__')"
            done = subprocess.run([sys.executable, "-c", older], cwd=HERE, capture_output=True)
            message = f"{pathlib.PurePath(name).name} needs Python 3.8 or newer, and this is Python 3.7\n"
            self.assertEqual((done.returncode, done.stdout, done.stderr.decode()), (1, b"", message))

    def test_each_head_says_what_is_needed(self):
        for path in {*HERE.glob("*.py"), *(HERE / name for name in self.TOOLS)}:
            self.assertIn("Python 3.8", path.read_text().partition("import")[0], path.name)


class Words(unittest.TestCase):
    def test_each_kind_of_line(self):
        for line, wanted in [
            ("point 3FF0000000000000 401C000000000000 6 5 28", "point x = 1, y = 7; active rows 6 and 5; 28 readings"),
            (point(1, -2.5, "1 - 23"), "point x = 1, y = -2.5; first active row 1, no second; 23 readings"),
            (point(1, -2.5, "- 1 23"), "point x = 1, y = -2.5; no first active row, second 1; 23 readings"),
            (point(-0.0, math.inf), "point x = -0, y = infinity; no active rows; 7 readings"),
            (point(-math.inf, 0.0), "point x = -infinity, y = 0; no active rows; 7 readings"),
            (f"level {hexed(3)} - - 1", "level y = 3, x is open; no active rows; 1 reading"),
            (f"across {hexed(-1e24)} 2 - 4", "across x = -1e24, y is open; first active row 2, no second; 4 readings"),
            ("nothing - - 0", "nothing, neither x nor y; no active rows; 0 readings"),
            ("refused 9", "refused 9: the kind of the record is not 1"),
            ("refused 11", "refused 11: no meaning is known for this number"),
        ]:
            self.assertEqual(answers.say_answer(answers.read_line(f"1 {line}")[1]), wanted)

    def test_numbers_keep_every_bit(self):
        for number, wanted in [(0.1, "0.1"), (1e6, "1000000"), (1e16, "1e16"), (5e-324, "5e-324"), (-1e-7, "-1e-7"), (1 + 2**-52, "1.0000000000000002")]:
            self.assertEqual(answers.exact(number), wanted)
        source = random.Random(4)
        for _ in range(2000):
            number = struct.unpack("<d", source.getrandbits(64).to_bytes(8, "little"))[0]
            if math.isfinite(number):
                self.assertEqual(float(answers.exact(number)), number)

    def test_every_refusal_has_its_own_meaning(self):
        self.assertEqual(sorted(answers.REFUSALS), [1, 2, 3, 5, 6, 7, 8, 9, 10])  # 4 is not used again
        self.assertEqual(len(set(answers.REFUSALS.values())), 9)

    def test_whole_outputs(self):
        self.assertEqual(answers.read_all(b"end 0\n", 0), [])
        said = answers.read_all(SAMPLE_ANSWERS, 2)
        self.assertEqual([(line[:7], answer.y) for line, answer in said], [("1 point", 1.0), ("2 point", 2.0)])

    def test_outputs_with_something_missing(self):
        first = "1 nothing - - 0"
        for printed, count, wanted in [
            (b"", 0, "the line 'end' is missing, the last one is ''"),
            (b"end 0", 0, "the line 'end' is missing, the last one is 'end 0'"),
            (b"1 nothing - - 0\n", 1, f"the line 'end' is missing, the last one is '{first}'"),
            (b"1 nothing - - 0\nend", 1, "the line 'end' is missing, the last one is 'end'"),
            (b"end 0\n", 1, "0 lines and then 'end 0', where the records are 1"),
            (b"1 nothing - - 0\nend 2\n", 1, "1 lines and then 'end 2', where the records are 1"),
            (b"1 nothing - - 0\nend 1\n", 2, "1 lines and then 'end 1', where the records are 2"),
            (b"2 nothing - - 0\nend 1\n", 1, "line 1 is about record 2"),
            (b"1 nothing - -\nend 1\n", 1, "not a line of rowrun: '1 nothing - -'"),
            (b"1 nothing - - 0\r\nend 1\n", 1, "not a line of rowrun: '1 nothing - - 0\r'"),
            (b"1 \xff\nend 1\n", 1, "not a line of rowrun: '1 \\xff'"),
            (b"1 level 7FF8000000000000 - - 1\nend 1\n", 1, "a coordinate is NaN"),
        ]:
            with self.subTest(printed=printed), self.assertRaises(ValueError) as caught:
                answers.read_all(printed, count)
            self.assertEqual(str(caught.exception), wanted)


@unittest.skipUnless(platform.machine() == "x86_64", "rowrun is for x86-64")
class Answering(unittest.TestCase):
    """tools/answer in a repository of its own, with scripts in place of rt and rowrun."""

    def setUp(self):
        directory = tempfile.TemporaryDirectory()
        self.addCleanup(directory.cleanup)
        self.root = pathlib.Path(directory.name)
        shutil.copytree(HERE, self.root / "tools", ignore=shutil.ignore_patterns("__pycache__"))
        self.rowrun = self.root / "crates" / "rowrun" / "out" / "rowrun"
        self.picture = self.root / "picture.svg"
        self.problem = self.root / "tools" / "example.txt"
        self.system = os.pathsep.join(["/usr/bin", "/bin"])
        self.path = os.pathsep.join([str(self.root / "bin"), self.system])
        self.prints(f"{EXAMPLE_LINE}\nend 1")
        self.script(self.root / "bin" / "rt", "echo the noise of rt; echo the errors of rt >&2")

    def script(self, path, words):
        path.parent.mkdir(parents=True, exist_ok=True)
        path.write_text(f"#!/bin/sh\n{words}\n")
        path.chmod(0o755)

    def prints(self, words, more=""):
        """Has the stand-in of rowrun read everything and print this."""
        self.script(self.rowrun, f"cat >/dev/null\ncat <<'END'\n{words}\nEND\n{more}")

    def text(self, content):
        path = self.root / "problem.txt"
        path.write_text(content)
        return path

    def answer(self, *arguments, path=None, **streams):
        environment = dict(os.environ, PATH=path or self.path)
        words = [sys.executable, str(self.root / "tools" / "answer"), *map(str, arguments)]
        streams = {"stdin": subprocess.DEVNULL, "stdout": subprocess.PIPE, **streams}
        done = subprocess.run(words, stderr=subprocess.PIPE, env=environment, cwd="/", **streams)
        return done.returncode, (done.stdout or b"").decode(), done.stderr.decode()

    def test_the_problem_its_line_and_the_words(self):
        status, said, wrong = self.answer(self.problem, self.picture)
        words = "  point x = 1, y = 7; active rows 6 and 5; 28 readings"
        self.assertEqual(said, f"{self.problem.read_text()}\n{EXAMPLE_LINE}\n{words}\nend 1\ndrawn in {self.picture}\n")
        self.assertEqual((status, wrong), (0, ""))
        self.assertIn("answer", Svg(self.picture.read_text()).by_id)

    def test_every_line_has_its_words(self):
        self.prints(SAMPLE_ANSWERS.decode().rstrip())
        status, said, _ = self.answer(self.root / "tools" / "sample.txt")
        self.assertEqual((status, said.splitlines()[-1]), (0, "end 2"))
        self.assertEqual(said.splitlines()[-4], "  point x = 1, y = 1; active rows 0 and 1; 7 readings")
        self.assertEqual(said.splitlines()[-2], "  point x = 0, y = 2; first active row 1, no second; 23 readings")

    def test_a_text_that_does_not_pack(self):
        self.prints("end 0")
        problem = self.text("lp\n1 2\n")
        message = f"{problem}:2: a row is three numbers a b c, here stand 2\n"
        self.assertEqual(self.answer(problem), (2, "", message))

    def test_a_missing_problem(self):
        self.assertEqual(self.answer(self.root / "none"), (2, "", f"{self.root / 'none'}: No such file or directory\n"))

    def test_a_text_without_record(self):
        self.prints("end 0")
        problem = self.text("# nothing\n")
        self.assertEqual(self.answer(problem), (0, "# nothing\n\nend 0\n", f"{problem}: it holds no record\n"))

    def test_standard_input(self):
        with open(self.problem, "rb") as given:
            status, said, _ = self.answer("-", stdin=given)
        self.assertEqual((status, said.splitlines()[-1]), (0, "end 1"))

    def test_a_picture_that_cannot_be_drawn_stays(self):
        self.picture.write_text("an older picture")
        self.prints("1 nothing 7 - 0\nend 1")  # there is no row 7
        status, said, wrong = self.answer(self.problem, self.picture)
        self.assertEqual((status, said.splitlines()[-1]), (1, "end 1"))
        self.assertEqual(wrong, f"{self.picture} is not drawn: the answer names a row that record 1 does not have\n")
        self.assertEqual(self.picture.read_text(), "an older picture")
        self.assertFalse(list(self.root.glob("picture.svg?*")))

    def test_a_picture_that_nothing_is_drawn_for_stays(self):
        self.picture.write_text("an older picture")
        self.prints("end 0")
        status, _, wrong = self.answer(self.text(""), self.picture)
        self.assertEqual((status, self.picture.read_text()), (1, "an older picture"))
        self.assertIn(f"{self.picture} is not drawn: there is no record to draw\n", wrong)

    def test_a_picture_that_cannot_be_written(self):
        for place, why in [(self.root / "no" / "folder", "No such file or directory"), (self.root, "Is a directory")]:
            status, said, wrong = self.answer(self.problem, place)
            self.assertEqual((status, said.splitlines()[-1], wrong), (1, "end 1", f"{place} is not drawn: {why}\n"))

    def test_a_picture_keeps_its_link_and_its_mode(self):
        self.picture.write_text("an older picture")
        self.picture.chmod(0o640)
        link = self.root / "link.svg"
        link.symlink_to(self.picture)
        self.assertEqual(self.answer(self.problem, link)[0], 0)
        self.assertTrue(link.is_symlink() and self.picture.read_text().startswith("<?xml"))
        self.assertEqual(stat.S_IMODE(self.picture.stat().st_mode), 0o640)

    def test_a_picture_into_a_pipe(self):
        status, said, _ = self.answer(self.problem, "/dev/stdout")
        self.assertEqual(status, 0)
        self.assertIn("</svg>", said)
        self.assertTrue(stat.S_ISLNK(os.lstat("/dev/stdout").st_mode))

    def test_the_problem_is_not_drawn_over(self):
        problem = self.text("lp\n1 1 2\n")
        self.assertEqual(self.answer(problem, problem), (1, "", f"{problem} is the problem itself, and no picture is drawn over it\n"))
        self.assertEqual(problem.read_text(), "lp\n1 1 2\n")

    def test_rt_decides_whether_the_program_is_old(self):
        newer = self.root / "newer"
        self.script(newer, "cat >/dev/null\necho 1 nothing - - 3\necho end 1")
        self.script(self.root / "bin" / "rt", f'echo "$PWD $*" >"{self.root}/asked"; cat >>"{self.root}/asked"; cp "{newer}" out/rowrun; echo noise; echo noise >&2')
        status, said, wrong = self.answer(self.problem)
        self.assertEqual((status, said.splitlines()[-3], wrong), (0, "1 nothing - - 3", ""))
        self.assertNotIn("noise", said)
        self.assertEqual((self.root / "asked").read_text(), f"{self.root.resolve()}/crates/rowrun run\n")

    def test_a_program_that_is_not_proved_is_not_used(self):
        self.script(self.root / "bin" / "rt", "echo rt: rowrun NOT PROVED; exit 3")
        status, said, wrong = self.answer(self.problem, self.picture)
        self.assertEqual((status, said), (1, ""))
        self.assertEqual(wrong, "rt: rowrun NOT PROVED\nrt run in crates/rowrun ended with status 3, and rowrun is not used\n")
        self.assertFalse(self.picture.exists())

    def test_a_program_that_went_missing_is_built_again(self):
        self.rowrun.rename(self.root / "kept")
        self.script(self.root / "bin" / "rt", f'[ -f out/rowrun ] || cp "{self.root}/kept" out/rowrun')
        self.assertEqual(self.answer(self.problem)[0], 0)

    def test_rt_that_builds_nothing(self):
        self.rowrun.unlink()
        self.script(self.root / "bin" / "rt", "echo ok")
        self.assertEqual(self.answer(self.problem), (1, "", "ok\nrt run in crates/rowrun left no crates/rowrun/out/rowrun\n"))

    def test_without_rt(self):
        if shutil.which("rt", path=self.system):
            self.skipTest("rt stands among the commands of the system")
        status, said, wrong = self.answer(self.problem, path=self.system)
        self.assertEqual((status, said.splitlines()[-1]), (0, "end 1"))
        self.assertEqual(wrong, "there is no rt on PATH: crates/rowrun/out/rowrun is used as it stands, and may be older than its sources\n")
        self.rowrun.unlink()
        status, said, wrong = self.answer(self.problem, path=self.system)
        message = "there is no crates/rowrun/out/rowrun, and no rt on PATH to prove and build it: the Rattle kit has it\n"
        self.assertEqual((status, said, wrong), (1, "", message))

    def test_whoever_waits_is_told_why(self):
        place = self.root / "tools" / "answer"
        place.write_text(place.read_text().replace("\nSOON = 5", "\nSOON = 0.1"))
        self.script(self.root / "bin" / "rt", "sleep 0.5")
        status, said, wrong = self.answer(self.problem)
        self.assertEqual((status, said.splitlines()[-1]), (0, "end 1"))
        self.assertEqual(wrong, "rt is proving and building rowrun, which may take some minutes\n")

    def test_a_missing_end(self):
        self.prints(EXAMPLE_LINE)
        status, said, wrong = self.answer(self.problem, self.picture)
        self.assertEqual((status, said), (1, ""))
        self.assertEqual(wrong, f"rowrun printed something wrong: the line 'end' is missing, the last one is '{EXAMPLE_LINE}'\n")
        self.assertFalse(self.picture.exists())

    def test_lines_for_other_records(self):
        self.prints("end 0")
        status, said, wrong = self.answer(self.problem)
        self.assertEqual((status, said), (1, ""))
        self.assertEqual(wrong, "rowrun printed something wrong: 0 lines and then 'end 0', where the records are 1\n")

    def test_records_that_stand_in_a_tail(self):
        self.prints("1 refused 9\n2 refused 9\nend 2")
        problem = self.text("tail " + "000000000000" * 2)
        self.assertEqual(self.answer(problem)[0], 0)

    def test_a_program_that_fails(self):
        self.prints(f"{EXAMPLE_LINE}\nend 1", "exit 7")
        self.assertEqual(self.answer(self.problem), (1, "", "rowrun ended with status 7\n"))
        self.rowrun.write_text("#!/no/such/interpreter\n")
        status, said, wrong = self.answer(self.problem)
        self.assertEqual((status, said), (1, ""))
        self.assertNotEqual(wrong, "")

    def test_a_program_that_reads_nothing(self):
        self.script(self.rowrun, f"exec <&-\necho {EXAMPLE_LINE}\necho end 1")
        problem = self.text("lp\n" + "1 2 3\n" * 20000)  # more than a pipe holds
        self.assertEqual(self.answer(problem)[0], 0)

    def test_closed_output(self):
        reader, writer = os.pipe()
        os.close(reader)
        status, _, wrong = self.answer(self.problem, self.picture, stdout=writer)
        os.close(writer)
        self.assertEqual((status, wrong), (1, ""))
        self.assertTrue(self.picture.exists())

    def test_output_that_cannot_be_written(self):
        with open("/dev/full", "wb") as full:
            self.assertEqual(self.answer(self.problem, stdout=full), (1, "", "standard output: No space left on device\n"))


class House(unittest.TestCase):
    """The rules of the repository, on a small one in which nothing breaks them."""

    LAWS = """-- What adding does.
use mathlib.Core.Path.{◌≡◌, refl, ap as by}
use Rattle.base.specs.Sums.{◌⊞◌, twice, if◌then◌else◌}
use Rattle.base.proofs.Tools as tools

pub zero-left : (n : ℕ) → zero ⊞ n ≡ n
zero-left zero = refl
zero-left (suc n) = by suc (zero-left n)

pub right {ℓ} : (n : ℕ) → if n then n else tools.step n ≡ twice n
unfolding twice
right n = zero-left n
"""
    SUMS = """-- Sums. Assumes nothing.
use Prim.Native.Nat.{ℕ, ◌+◌}

unfoldable pub ◌⊞◌ : ℕ → ℕ → ℕ
◌⊞◌ a b = a + b
"""
    CODE = """// Adds two numbers.
ghost use mathlib.Core.Path.{◌≡◌};
use base::Number;

pub fn add(a: u64, b: u64) -> u64
    ensures { result ≡ a }
{
    a + b
}
"""
    EDIT = "file: src/lib.rt\nold:     a + b\nnew:     a - b\n"
    PROMISED = """# Promises

| Promise | Kept by | Guarded by |
|---|---|---|
| It adds, and/or stops | base/Laws: `right`; `base/proofs/Laws.antt` | base/minus |
"""

    def setUp(self):
        directory = tempfile.TemporaryDirectory()
        self.addCleanup(directory.cleanup)
        self.root = pathlib.Path(directory.name)
        self.put("crates/base/src/lib.rt", self.CODE)
        self.put("crates/base/specs/Lib.antt", "pub mod Sums\n")
        self.put("crates/base/specs/Sums.antt", self.SUMS)
        self.put("crates/base/proofs/Lib.antt", "pub mod Laws\npub mod Tools\n")
        self.put("crates/base/proofs/Laws.antt", self.LAWS)
        self.put("crates/base/proofs/Tools.antt", "-- A step.\npub step : ℕ → ℕ\nstep n = n\n")
        self.put("crates/base/must-fail/minus.edit", self.EDIT)
        self.put("docs/PROMISES.md", self.PROMISED)

    def put(self, name, text):
        path = self.root / name
        path.parent.mkdir(parents=True, exist_ok=True)
        path.write_bytes(text if isinstance(text, bytes) else text.encode())

    def change(self, name, old, new):
        text = (self.root / name).read_text("utf-8")
        self.assertIn(old, text)
        self.put(name, text.replace(old, new))

    def assert_found(self, *wanted):
        self.assertEqual([str(found) for found in house.findings(self.root)], list(wanted))

    def test_nothing_is_found(self):
        self.assert_found()

    def test_long_lines(self):
        self.put("crates/base/specs/Sums.antt", self.SUMS + "-- " + "ℕ" * 157 + "\n")  # 160 characters in 474 bytes
        self.assert_found()
        self.put("crates/base/specs/Sums.antt", self.SUMS + "-- " + "ℕ" * 158 + "\n")
        self.put("crates/base/notes.txt", "a" * 200)
        for data in ("stdin", "stdout", "args", "status", "data/deep/file", "must-fail/README", "out/made/a.antt"):
            self.put(f"crates/base/{data}", "a" * 200)
        self.assert_found(
            "crates/base/notes.txt:1: 200 characters, and 160 are the most",
            "crates/base/specs/Sums.antt:6: 161 characters, and 160 are the most",
        )

    def test_bytes_that_are_no_text(self):
        self.put("crates/base/notes.txt", b"fine\n\xff\n")
        self.assert_found("crates/base/notes.txt:2: not text in UTF-8")

    def test_files_without_opening(self):
        wanted = "does not open with a comment that says what it is for"
        for name, text in [("src/lib.rt", self.CODE), ("specs/Sums.antt", self.SUMS)]:
            for opening in ("", "--\n", "\n"):
                self.put(f"crates/base/{name}", opening + text.partition("\n")[2])
                self.assert_found(f"crates/base/{name}:1: {wanted}")
            self.put(f"crates/base/{name}", text)
        self.put("crates/base/src/lib.rt", "//! Adds.\n" + self.CODE.partition("\n")[2])
        self.assert_found()

    def test_a_list_of_modules_needs_no_opening(self):
        self.put("crates/base/specs/Lib.antt", "pub mod Sums\n-- a remark\nmod More\npub mod Others\n")
        self.assert_found()
        self.put("crates/base/specs/Lib.antt", "pub mod Sums\n\npub one : ℕ\none = 1\n")
        self.put("crates/base/specs/Other.antt", "pub mod Sums\n")
        wanted = "does not open with a comment that says what it is for"
        self.assert_found(f"crates/base/specs/Lib.antt:1: {wanted}", f"crates/base/specs/Other.antt:1: {wanted}")

    def unused(self, use, body, language="antt"):
        """The names that a file with this `use` line and this body brings in and does not use."""
        source = house.Source(f"crates/base/specs/A.{language}", f"-- A.\n{use}\n\n{body}\n" if language == "antt" else f"// A.\n{use}\n{body}\n")
        return [found.name for found in source.imports if not source.uses(found.name)]

    def test_names_that_are_not_used(self):
        for use, body, wanted in [
            ("use M.{a, b}", "f = a", ["b"]),
            ("use M.{a, b}", "f = a-b", ["a", "b"]),
            ("use M.{a}", "f : A\nunfolding a\nf = refl", []),
            ("use M.{a}", "f = b -- a", ["a"]),
            ("use M.{a}", "{- a {- a -} a -} f = b", ["a"]),
            ("use M.{a}", "-- {-\nf = a -- -}", []),
            ("use M.{a}", 'f = "a"', ["a"]),
            ("use M.{a}", "f = r .a", ["a"]),
            ("use M.{a}", "f = r.a", ["a"]),
            ("use M.{a}", "f = a.b", []),
            ("use M.{a}", "f = λ x. a", []),
            ("use M.{a}", "f (a, b) = x@a", []),
            ("use M.{a as b}", "f = a", ["b"]),
            ("use M.{a as b}", "f = b", []),
            ("use M.{N.d}", "f = d", []),
            ("use M.{N.d, N.e}", "f = d", ["e"]),
            ("use M.{\n    a,\n    b}", "f = b", ["a"]),
            ("use M.N", "f = N.a", []),
            ("use M.N", "f = M.a", ["N"]),
            ("use M.N as O", "f = O.a", []),
            ("use M.N as O", "f = N.a", ["O"]),
            ("use M.T.TheVariants.{Left, Right}", "f Left = Right", []),
            ("use M.T.TheVariants as Is", "f Is.Left = b", []),
            ("pub use M.{a}", "f = b", ["a"]),  # passed on, which the rule lets be
        ]:
            with self.subTest(use=use, body=body):
                self.assertEqual(self.unused(use, body), wanted)

    def test_operators_that_are_not_used(self):
        for use, body, wanted in [
            ("use M.{◌≡◌, ◌≤◌}", "f : a ≡ b", ["◌≤◌"]),
            ("use M.{◌+◌, ◌-◌}", "f = map (◌+ 1) (map (1 -◌) xs)", []),
            ("use M.{◌+◌, ◌-◌}", "f = fold ◌+◌ xs", ["◌-◌"]),
            ("use M.{¬◌}", "f : ¬ A", []),
            ("use M.{if◌then◌else◌}", "f = if a then b else c", []),
            ("use M.{if◌then◌else◌}", "f = if a then b", ["if◌then◌else◌"]),
            ("use M.{if◌then◌else◌}", "f : A\nunfolding if◌then◌else◌", []),
            ("use M.{[], ◌∷◌}", "f = 1 ∷ []", []),
            ("use M.{[] as none, ◌∷◌ as ◌then◌}", "f = 1 then none", []),
            ("use M.{[], ◌∷◌}", "f = elim x [ a ↦ b | c ↦ d ]", ["[]", "◌∷◌"]),
            ("use M.{∥◌∥₁}", "f : ∥ A ∥₁", []),
            ("use M.{◌>>=◌, ◌>>◌}", "f = do\n  x ← m\n  n", []),
            ("use M.{◌>>=◌, ◌>>◌}", "f = m", ["◌>>=◌", "◌>>◌"]),
            ("use M.{«in»}", "f = «in»", []),
        ]:
            with self.subTest(use=use, body=body):
                self.assertEqual(self.unused(use, body), wanted)

    def test_ghosts_that_are_not_used(self):
        for use, body, wanted in [
            ("ghost use M.{◌≡◌, length};", "ensures { result ≡ 1 }", ["length"]),
            ("ghost use M as ghost;", "ensures { ghost.a }", []),
            ("ghost use M.{a};", "// a", ["a"]),
            ("ghost use M.{a};", "let q = b'\"'; a", []),
            ("use m::Thing;", "f()", []),
        ]:
            with self.subTest(use=use, body=body):
                self.assertEqual(self.unused(use, body, "rt"), wanted)

    def test_an_unused_name_is_found_where_it_stands(self):
        self.change("crates/base/proofs/Laws.antt", "{◌≡◌, refl,", "{◌≡◌,\n    sym, refl,")
        self.change("crates/base/src/lib.rt", "{◌≡◌}", "{◌≡◌, true}")
        self.assert_found(
            "crates/base/proofs/Laws.antt:3: `sym` is brought in and not used", "crates/base/src/lib.rt:2: `true` is brought in and not used"
        )
        self.change("crates/base/proofs/Laws.antt", "use mathlib", "pub use mathlib")
        self.assert_found("crates/base/src/lib.rt:2: `true` is brought in and not used")

    def laws(self, text):
        return [(law.name, law.line) for law in house.Source("crates/base/proofs/A.antt", text).laws()]

    def test_which_names_are_laws(self):
        text = """-- Laws.
pub use M.{x}
pub mod N
pub a : A
a = b

hidden : A
hidden = b

abbrev pub b : A
unfoldable pub c {ℓ} : A
unfoldable abbrev pub ◌≼◌ : A
axiom pub d : A

module _ (n : ℕ) where
  pub e : A
  e = b

  module _ (m : ℕ) where
    pub f : A

pub record R (n : ℕ) : Type 0 where
  pub g : A

pub data D : Type 0 where
  h : D

module _ where
  pub record S : Type 0 where
    pub i : A

  pub j : A
pub ruleset k
mutual
  pub l : A
pub m :
    A → B
"""
        names = [("a", 4), ("b", 10), ("c", 11), ("◌≼◌", 12), ("d", 13), ("e", 16), ("f", 20), ("R", 22), ("D", 25), ("S", 29), ("j", 32), ("l", 35), ("m", 36)]
        self.assertEqual(self.laws(text), names)

    def test_laws_that_nobody_uses(self):
        unused = "nothing uses `spare`, and docs/PROMISES.md does not name it"
        for more in [
            "pub spare : ℕ\nspare = 1\n",
            "pub spare : ℕ → ℕ\nunfolding twice\nspare zero = zero\nspare (suc n) = spare n\n",
            "pub spare : ℕ\nspare = 1\n\nother : ℕ\nother = r .spare -- spare\n",
            "pub spare {ℓ} : ℕ\nspare = 1\n  where\n    help : ℕ\n    help = spare\n",
        ]:
            self.put("crates/base/proofs/Laws.antt", self.LAWS + "\n" + more)
            self.assert_found(f"crates/base/proofs/Laws.antt:14: {unused}")

    def test_laws_that_are_used(self):
        spare = self.LAWS + "\nmodule _ (n : ℕ) where\n  abbrev pub spare : ℕ\n  spare = n\n"
        for more in ["\nother : ℕ\nother = spare 1\n", "\n  other : ℕ\n  other = spare\n", "\nother : A\nunfolding spare\nother = refl\n"]:
            self.put("crates/base/proofs/Laws.antt", spare + more)
            self.assert_found()
        self.put("crates/base/proofs/Laws.antt", spare)
        for other in [
            "use Rattle.base.proofs.Laws.{spare}\nf = spare",
            "use Rattle.base.proofs.Laws.{spare as s}\nf = s",
            "use Rattle.base.proofs.Laws as laws\nf = laws.spare",
            "use Rattle.base.proofs\nf = proofs.Laws.spare",
            "use Rattle.base.proofs as p\nuse p.Laws.{spare}\nf = spare",
            "f = Rattle.base.proofs.Laws.spare",
            "f = package.Rattle.base.proofs.Laws.spare",
            "pub use Rattle.base.proofs.Laws.{spare}",
        ]:
            self.put("crates/over/specs/Over.antt", f"-- Over it.\n{other}\n")
            self.assert_found()
        self.put("crates/over/specs/Over.antt", "-- Over it.\n")
        self.put("crates/base/proofs/add/Proof.antt", "-- `add`.\nuse Rattle.base.proofs.Laws.{spare}\nf = spare\n")
        self.assert_found()
        self.put("crates/base/proofs/add/Proof.antt", "-- `add`.\n")
        self.put("crates/over/src/lib.rt", "// Over it.\nghost use Rattle.base.proofs.Laws.{spare};\n// ..\nensures { spare }\n")
        self.assert_found()
        (self.root / "crates/over/src/lib.rt").unlink()
        for crate, given in [("base", "crate::proofs::Laws::spare"), ("over", "base::proofs::Laws::spare"), ("over", "x::specs::Sums::y, base::proofs::Laws::spare")]:
            self.put(f"crates/{crate}/src/more.rt", f"// More.\n#[tactic(auto, using({given}), unfolding(crate::specs::Sums::twice))]\nfn f() {{}}\n")
            self.assert_found()
            (self.root / f"crates/{crate}/src/more.rt").unlink()

    def test_a_law_of_the_same_name_is_another(self):
        self.put("crates/base/proofs/Laws.antt", self.LAWS + "\npub spare : ℕ\nspare = 1\n")
        unused = "crates/base/proofs/Laws.antt:14: nothing uses `spare`, and docs/PROMISES.md does not name it"
        for other in ["use Rattle.far.proofs.Laws.{spare}\nf = spare", "spare : ℕ\nspare = 1", "use Rattle.base.proofs.Tools as t\nf = t.spare"]:
            self.put("crates/over/specs/Over.antt", f"-- Over it.\n{other}\n")
            self.assert_found(unused)
        for given in ["crate::proofs::Laws::spare", "base::proofs::Tools::spare", "base::proofs::Laws::spared", "base::other::spare"]:
            self.put("crates/over/src/lib.rt", f"// Over it.\n#![tactic(auto, using({given}))]\n")
            self.assert_found(unused)
        # One that is brought in and not used has no user in that.
        self.put("crates/over/specs/Over.antt", "-- Over it.\nuse Rattle.base.proofs.Laws.{spare}\n")
        self.assert_found(unused, "crates/over/specs/Over.antt:2: `spare` is brought in and not used")

    def test_laws_that_are_promised(self):
        self.put("crates/base/proofs/Laws.antt", self.LAWS + "\npub spare : ℕ\nspare = 1\n")
        unused = "crates/base/proofs/Laws.antt:14: nothing uses `spare`, and docs/PROMISES.md does not name it"
        for promise, wanted in [
            ("base/Laws: `spare`", []),
            ("see `base/Laws.spare`", []),
            ("`other`, `spare`", []),
            ("base/Laws", []),
            ("base/Laws; `other`", []),
            ("`Laws.antt` of `base`", []),
            ("spare", [unused]),
            ("`spare-one`", [unused]),
            ("base/Laws: `right`", [unused]),
            ("base/Tools", [unused]),
            ("`base/proofs/Laws.antt`", [unused]),
        ]:
            with self.subTest(promise=promise):
                self.put("docs/PROMISES.md", f"{self.PROMISED}| More | {promise} | base/minus |\n")
                self.assert_found(*wanted)

    def test_edits_that_no_promise_names(self):
        self.put("crates/base/must-fail/times.edit", self.EDIT)
        missing = "crates/base/must-fail/times.edit:1: docs/PROMISES.md does not name base/times"
        for promise, wanted in [
            ("base/minus", [missing]),
            ("base/timesless", [missing, "docs/PROMISES.md:6: base/timesless is no must-fail edit, and no file of definitions or proofs"]),
            ("far/base/times", [missing]),
            ("base/minus, base/times", []),
            ("`base/times`", []),
            ("as base/times.", []),
        ]:
            with self.subTest(promise=promise):
                self.put("docs/PROMISES.md", f"{self.PROMISED}| More | | {promise} |\n")
                self.assert_found(*wanted)
        (self.root / "docs" / "PROMISES.md").unlink()
        found = [str(finding) for finding in house.findings(self.root)]
        self.assertIn(missing, found)

    def test_promises_of_edits_that_are_not_there(self):
        wrong = "is no must-fail edit, and no file of definitions or proofs"
        for line, wanted in [
            ("| It adds | | base/plus |", ["base/plus"]),
            ("| It adds | base/plus | base/minus |", ["base/plus"]),
            ("In words: base/plus.", ["base/plus"]),
            ("| It adds | | bass/minus, or none |", ["bass/minus"]),
            ("| It adds and/or stops | in/out | there is none |", []),
            ("In words: and/or, `base/src`, base/specs, base/Sums, base/proofs/Laws.antt, https://base/one.", []),
        ]:
            with self.subTest(line=line):
                self.put("docs/PROMISES.md", f"{self.PROMISED}{line}\n")
                self.assert_found(*(f"docs/PROMISES.md:6: {name} {wrong}" for name in wanted))

    def test_edits_that_do_not_fit_their_file(self):
        edit = "crates/base/must-fail/minus.edit"
        times = "times, and must stand there once"
        for text, wanted in [
            ("file: src/lib.rt\nold:     a * b\nnew:     a - b\n", [f"2: its `old:` text stands in crates/base/src/lib.rt 0 {times}"]),
            ("file: src/lib.rt\nold: a\nnew: b\n", [f"2: its `old:` text stands in crates/base/src/lib.rt 7 {times}"]),
            ("file: src/none.rt\nold: a\nnew: b\n", ["1: there is no crates/base/src/none.rt to change"]),
            ("file: ../base/src/lib.rt\nold: a\nnew: b\n", ["1: there is no crates/base/../base/src/lib.rt to change"]),
            ("file: must-fail/minus.edit\nold: a\nnew: b\n", ["1: there is no crates/base/must-fail/minus.edit to change"]),
            ("old: a + b\nnew: b\n", ["1: it has no `file:`, `old:` and `new:` lines"]),
            ("file: src/lib.rt\nold: a + b\n", ["1: it has no `file:`, `old:` and `new:` lines"]),
            ("", ["1: it has no `file:`, `old:` and `new:` lines"]),
            # A remark, and a second change of the same file, which is as the first left it.
            ("# a remark\nfile: src/lib.rt\nold: a + b\nnew: c + d\nold: c + d\nnew: a\n", []),
            ("file: src/lib.rt\nold: a + b\nnew: c\nold: a + b\nnew: a\n", [f"4: its `old:` text stands in crates/base/src/lib.rt 0 {times}"]),
            ("file: src/lib.rt\nold: a + b\nnew:\nfile: specs/Sums.antt\nold: a + b\nnew: a\n", []),
        ]:
            with self.subTest(text=text):
                self.put(edit, text)
                self.assert_found(*(f"{edit}:{line}" for line in wanted))

    def test_theorems_that_are_not_there(self):
        self.put("crates/demands/proofs/Sums.antt", "-- Sums.\npub of-two : ℕ\nof-two = 2\n\nof-one : ℕ\nof-one = 1\n")
        for kept_by, wanted in [
            ("base/Laws: `right`, `zero-left`; Sums: `of-two`", []),
            ("base/Laws: `right`, `left` and `over`", ["`left` in crates/base/proofs/Laws.antt", "`over` in crates/base/proofs/Laws.antt"]),
            ("base/Sums: `right`", ["`right` in crates/base/proofs/Sums.antt"]),  # which are definitions
            ("Sums: `of-two`, `of-one`", ["`of-one` in crates/demands/proofs/Sums.antt"]),  # which is not public
            ("base/Laws; `left`", []),
            ("contract of `left`: `right`", []),
        ]:
            with self.subTest(kept_by=kept_by):
                self.put("docs/PROMISES.md", f"{self.PROMISED}| Sums | {kept_by}; `of-two` | base/minus |\n")
                self.assert_found(*(f"docs/PROMISES.md:6: there is no public {name}" for name in wanted))

    PARAGRAPHS = "# Rules\n\n## 1. Sums\n\n- **1.1** They are made (1.2).\n- **1.2** Of two.\n\n## 2. Stops\n\n- **2.1** None.\n"

    def test_rules_out_of_order(self):
        for old, new, wanted in [
            ("**1.2**", "**1.3**", ["5: there is no 1.2 in docs/RULES.md", "6: 1.3 stands where 1.2 is next"]),
            ("**2.1**", "**1.3**", ["10: 1.3 stands where 2.1 is next"]),
            ("## 2.", "## 3.", ["8: 3 stands where 2 is next"]),
            ("**1.2**", "**1.1**", ["5: there is no 1.2 in docs/RULES.md", "6: 1.1 stands where 1.2 is next"]),
            ("Of two.", "Of two, as 1.1 and section 2 say: 3*7.5, 0.5, -7.5, 7.5e3, `7.5`.", []),
            ("Of two.", "Of two, by 7.5.", ["6: there is no 7.5 in docs/RULES.md"]),
            ("Of two.", "Of two (section 3).", ["6: there is no 3 in docs/RULES.md"]),
        ]:
            with self.subTest(new=new):
                self.put("docs/RULES.md", self.PARAGRAPHS)
                self.assert_found()
                self.change("docs/RULES.md", old, new)
                self.assert_found(*(f"docs/RULES.md:{finding}" for finding in wanted))

    def test_rules_that_are_not_there(self):
        rules = "RULES"  # apart from its number, since this file is held to the same
        self.put("docs/RULES.md", self.PARAGRAPHS)
        for cited, wanted in [
            ("1, 2.1 and 1.2", []),
            ("1.1 to 1.3", ["1.3"]),
            ("3, 4", ["3", "4"]),
            ("2.1, and 7 more", []),
            ("2.1 to the end", []),
        ]:
            for name in ("README.md", "docs/MORE.md", "tools/some.py", "bindings/c/some.h", "compare/src/some.rs", "crates/base/notes.txt"):
                with self.subTest(cited=cited, name=name):
                    self.put(name, f"See {rules} {cited}.\n")
                    self.assert_found(*(f"{name}:1: there is no {number} in docs/RULES.md" for number in wanted))
                    (self.root / name).unlink()
        self.put("bindings/rust/target/some.rs", f"See {rules} 9.\n")
        self.put("docs/PROMISES.md", self.PROMISED + "| 1.1 to 1.3 It adds; 2.1 and stops, `0.5` too | 7.5 | base/minus |\n\n7.5 in words.\n")
        self.assert_found("docs/PROMISES.md:6: there is no 1.3 in docs/RULES.md")
        (self.root / "docs" / "RULES.md").unlink()
        self.put("README.md", f"See {rules} 1.\n")
        self.assertIn("README.md:1: there is no 1 in docs/RULES.md", [str(finding) for finding in house.findings(self.root)])

    def test_the_command(self):
        for name in ("house", "command.py"):
            self.put(f"tools/{name}", (HERE / name).read_bytes())

        def run_here():
            done = subprocess.run([sys.executable, str(self.root / "tools" / "house")], capture_output=True, cwd="/")
            return done.returncode, done.stdout.decode(), done.stderr.decode()

        self.assertEqual(run_here(), (0, "", ""))
        self.put("crates/base/must-fail/other.edit", self.EDIT)
        self.assertEqual(run_here(), (1, "crates/base/must-fail/other.edit:1: docs/PROMISES.md does not name base/other\n", ""))
        shutil.rmtree(self.root / "crates")
        self.assertEqual(run_here(), (2, "", f"{self.root.resolve() / 'crates'}: No such file or directory\n"))


# A root that calls root::digits in another section, by that section's name. That one calls root::near beside it, and jumps on to
# root::last. ravelsickle_other, which multiplies, is called by none. Each listing has places where an instruction is put.
GNU = """\
In archive libkernel.a:

kernel.o:     file format elf64-x86-64


Disassembly of section .text.ravelsickle_root:

0000000000000000 <ravelsickle_root>:
   0:\tucomisd 0x0(%rip),%xmm0        # 8 <ravelsickle_root+0x8>
\t\t\t4: R_X86_64_PC32\t.LCPI0_0-0x4
   8:\tjp     1e <ravelsickle_root+0x1e>
   a:\tmovq   %xmm0,%rax
   f:\tcall   14 <ravelsickle_root+0x14>
\t\t\t10: R_X86_64_PLT32\t.text.root+0xc
  14:\t{root}
  19:\tmovq   %rax,%xmm0
  1e:\tret

Disassembly of section .text.root:

0000000000000000 <ravelsickle_other>:
   0:\timul   %rdi,%rdi
   4:\tret
   5:\tdata16 cs nopw 0x0(%rax,%rax,1)

0000000000000010 <root::digits>:
  10:\tsub    %rdx,%rax
  13:\tcall   30 <root::near>
  18:\t{digits}
  1d:\tjmp    22 <root::digits+0x12>
\t\t\t1e: R_X86_64_PLT32\troot::last-0x4
  22:\tcs nopw 0x0(%rax,%rax,1)
  2c:\tnopl   0x0(%rax)

0000000000000030 <root::near>:
  30:\tcmovae %rcx,%rax
  34:\t{near}
  39:\tret

Disassembly of section .text.root::last:

0000000000000000 <root::last>:
   0:\tlea    (%rax,%rcx,2),%rax
   4:\t{last}
   9:\tret
"""
LLVM = """\

libkernel.a(kernel.o):\tfile format elf64-x86-64

Disassembly of section .text.ravelsickle_root:

0000000000000000 <ravelsickle_root>:
       0:      \tucomisd\t(%rip), %xmm0           # xmm0 = mem[0],zero
                                                # 0x8 <ravelsickle_root+0x8>
\t\t0000000000000004:  R_X86_64_PC32\t.LCPI0_0-0x4
       8:      \tjp\t0x1e <ravelsickle_root+0x1e>
       a:      \tmovq\t%xmm0, %rax
       f:      \tcallq\t0x14 <ravelsickle_root+0x14>
\t\t0000000000000010:  R_X86_64_PLT32\t.text.root+0xc
      14:      \t{root}
      19:      \tmovq\t%rax, %xmm0
      1e:      \tretq

Disassembly of section .text.root:

0000000000000000 <ravelsickle_other>:
       0:      \timulq\t%rdi, %rdi
       4:      \tretq
       5:      \tnopw\t%cs:(%rax,%rax)

0000000000000010 <root::digits>:
      10:      \tsubq\t%rdx, %rax
      13:      \tcallq\t0x30 <root::near>
      18:      \t{digits}
      1d:      \tjmp\t0x22 <root::digits+0x12>
\t\t000000000000001e:  R_X86_64_PLT32\troot::last-0x4
      22:      \tnopw\t%cs:(%rax,%rax)
      2c:      \tnopl\t(%rax)

0000000000000030 <root::near>:
      30:      \tcmovaeq\t%rcx, %rax
      34:      \t{near}
      39:      \tretq

Disassembly of section .text.root::last:

0000000000000000 <root::last>:
       0:      \tleaq\t(%rax,%rcx,2), %rax
       4:      \t{last}
       9:      \tretq
"""
# The same for a board: a root that jumps on to root::last, behind which there is data. Some of a function can stand under $t.
GNU_THUMB = """
kernel.o:     file format elf32-littlearm


Disassembly of section .text.ravelsickle_root:

00000000 <ravelsickle_root>:
   0:\tstmdb\tsp!, {{r4, r5, r6, lr}}
   4:\tcbz\tr0, c <ravelsickle_root+0xc>
   6:\t{root}
   a:\tnop
   c:\tldmia.w\tsp!, {{r4, r5, r6, lr}}
  10:\tb.w\t0 <ravelsickle_root>
\t\t\t10: R_ARM_THM_JUMP24\troot::last

Disassembly of section .text.root::last:

00000000 <root::last>:
   0:\tmov.w\tr0, r1, lsl #3
   4:\tvldr\td0, [pc, #8]\t@ 10 <root::last+0x10>
   8:\t{last}
   c:\tbx\tlr
   e:\tnop
  10:\t.word\t0x00000000
  14:\t.word\t0x7ff80000
"""
LLVM_THUMB = """
kernel.o:\tfile format elf32-littlearm

Disassembly of section .text.ravelsickle_root:

00000000 <ravelsickle_root>:
       0:      \tpush.w\t{{r4, r5, r6, lr}}
       4:      \tcbz\tr0, 0xc <ravelsickle_root+0xc> @ imm = #4
       6:      \t{root}
       a:      \tnop
       c:      \tpop.w\t{{r4, r5, r6, lr}}
      10:      \tb.w\t0x10 <ravelsickle_root+0x10> @ imm = #-4
\t\t\t00000010:  R_ARM_THM_JUMP24\troot::last

Disassembly of section .text.root::last:

00000000 <root::last>:
       0:      \tlsl.w\tr0, r1, #3

00000004 <$t>:
       4:      \tvldr\td0, [pc, #8]             @ 0x10 <$d>
       8:      \t{last}
       c:      \tbx\tlr
       e:      \tnop

00000010 <$d>:
      10:\t00 00 00 00\t.word\t0x00000000
      14:\t00 00 f8 7f\t.word\t0x7ff80000
"""


class Instructions(unittest.TestCase):
    """The check of instructions, on listings."""

    X86_64 = [(GNU, instructions.X86_64), (LLVM, instructions.X86_64)]
    THUMB = [(GNU_THUMB, instructions.THUMB), (LLVM_THUMB, instructions.THUMB)]
    REFUSED = "not comparison, addition, subtraction, shift or mask"
    OUT = "call 19 <ravelsickle_root+0x19>\n\t\t\t15: R_X86_64_PLT32\toutside-0x4"

    def check(self, form, may_call="", **put):
        text, processor = form
        places = dict.fromkeys(("root", "digits", "near", "last"), "nop")
        listing = instructions.Listing(text.format(**{**places, **put}), processor)
        return listing, instructions.check(listing, may_call)

    def refused(self, form, **more):
        return list(self.check(form, **more)[1].refused.values())

    def test_clean_code_passes(self):
        for forms, counted in [(self.X86_64, "17 instructions in 4 functions"), (self.THUMB, "10 instructions in 2 functions")]:
            for form in forms:
                listing, result = self.check(form)
                self.assertEqual(result.refused, {})
                wanted = f"ravelsickle_root: {counted}, and none multiplies, divides or calls out\n"
                self.assertEqual(instructions.say_passed(listing, result), wanted)

    def test_each_kind_that_is_allowed(self):
        x86_64 = "movabs $0x1,%rax|movzbl %al,%eax|cqto|movsd %xmm0,%xmm1|cmpltsd %xmm0,%xmm1|adcq %rax, %rcx|shldq $3, %rax, %rcx|rorx $1,%rax,%rcx"
        x86_64 += "|andnpd %xmm0,%xmm1|pxor %xmm0,%xmm0|lzcnt %rax,%rcx|setnae %cl|cmovneq %rax, %rcx|nopw %cs:(%rax,%rax)|endbr64|sar %eax"
        thumb = "movs r0, #0|movt r0, #32760|ldrd r0, r1, [sp]|vmov.f64 d0, d1|vmrs APSR_nzcv, fpscr|vcmpe.f64 d0, #0.0|sbcs.w r0, r1, r2"
        thumb += "|movhs.w r4, r9, lsr #2|rsbs r0, r1, r2, lsl #1|rrx r0, r1|bfc r5, #20, #12|clzne r1, r5|ittet cs|uxtb r0, r0|add r0, pc, #8"
        for forms, allowed in [(self.X86_64, x86_64), (self.THUMB, thumb)]:
            for form in forms:
                for text in allowed.split("|"):
                    self.assertEqual(self.refused(form, root=text), [], text)

    def test_each_kind_that_is_refused(self):
        x86_64 = "imul %rcx,%rax|imulq %rcx, %rax|mul %rcx|mulx %rax,%rcx,%rdx|div %rcx|idivq %rcx|mulsd %xmm1,%xmm0|divsd %xmm1,%xmm0|sqrtsd %xmm0,%xmm0"
        x86_64 += "|vfmadd213sd %xmm2,%xmm1,%xmm0|mulpd %xmm1,%xmm0|pmuludq %xmm1,%xmm0|addsd %xmm1,%xmm0|subsd %xmm1,%xmm0|fmul %st(1),%st|fsqrt"
        x86_64 += "|cvtsi2sd %rax,%xmm0|rep stos %al,%es:(%rdi)|ud2|ret $0x8|(bad)|<unknown>"
        thumb = "mul r0, r1|muls r0, r1, r0|mla r0, r1, r2, r3|mls r0, r1, r2, r3|umull r0, r1, r2, r3|smlal r0, r1, r2, r3|udiv r0, r1, r2|sdivne r0, r1, r2"
        thumb += "|vmul.f64 d0, d1, d2|vdiv.f32 s0, s1, s2|vsqrt.f64 d0, d1|vfma.f64 d0, d1, d2|vadd.f64 d0, d1, d2|udf #0|svc 0|<unknown>|.word 0x00000000"
        for forms, place, refused in [(self.X86_64, "0x14", x86_64), (self.THUMB, "0x6", thumb)]:
            for form in forms:
                for text in refused.split("|"):
                    self.assertEqual(self.refused(form, root=text), [f"ravelsickle_root+{place}: {text}: {self.REFUSED}"])

    def test_what_root_calls_and_what_that_jumps_to(self):
        for form in self.X86_64:
            for put, place in [("digits", "root::digits+0x8"), ("near", "root::near+0x4"), ("last", "root::last+0x4")]:
                self.assertEqual(self.refused(form, **{put: "imul   %rcx,%rax"}), [f"{place}: imul %rcx,%rax: {self.REFUSED}"])
        for form in self.THUMB:
            self.assertEqual(self.refused(form, last="mul\tr0, r1"), [f"root::last+0x8: mul r0, r1: {self.REFUSED}"])

    def test_what_root_does_not_call(self):
        for text, processor in self.X86_64:
            self.assertIn("imul", text)
            called = self.refused((text, processor), last="jmp 9 <x>\n 5: R_X86_64_PLT32 ravelsickle_other-0x4")
            self.assertEqual([line.partition(" ")[0] for line in called], ["ravelsickle_other+0x0:"])

    def test_a_call_out(self):
        for form in self.X86_64:
            wanted = ["ravelsickle_root+0x14: call outside: leads out of the library"]
            for may_call in ("", "out", "side", "other|out", "outside.+"):
                self.assertEqual(self.refused(form, root=self.OUT, may_call=may_call), wanted, may_call)
            for may_call in ("outside", "out(side|lier)", ".*"):
                self.assertEqual(self.refused(form, root=self.OUT, may_call=may_call), [], may_call)
            listing, result = self.check(form, root=self.OUT, may_call="outside")
            self.assertTrue(instructions.say_passed(listing, result).endswith("or calls out, but for calls of outside\n"))

    def test_a_call_out_of_a_board(self):
        comparison, multiply = (f"bl 0 <a>\n\t\t\t6: R_ARM_THM_CALL\t__aeabi_{name}" for name in ("dcmplt", "dmul"))
        for form in self.THUMB:
            self.assertEqual(self.refused(form, root=comparison, may_call="__aeabi_dcmp(eq|lt)"), [])
            wanted = ["ravelsickle_root+0x6: bl __aeabi_dmul: leads out of the library"]
            self.assertEqual(self.refused(form, root=multiply, may_call="__aeabi_dcmp(eq|lt)"), wanted)

    def test_a_place_that_is_known_only_when_it_runs(self):
        got = "call *0x0(%rip)        # 1a <x>\n\t\t\t16: R_X86_64_GOTPCRELX\troot::last-0x4"
        for form in self.X86_64:
            for text in ("jmp *%rax", "jmpq *8(%rax)", "call *%rax", "callq *%rcx", got):
                self.assertEqual([line.split(": ")[-1] for line in self.refused(form, root=text)], ["leads to a place that is known only when it runs"])
        for form in self.THUMB:
            for text in ("bx r3", "blx r3", "bxne r3", "tbb [pc, r1]", "tbh [pc, r1, lsl #1]"):
                wanted = f"ravelsickle_root+0x6: {text}: leads to a place that is known only when it runs"
                self.assertEqual(self.refused(form, root=text), [wanted])
            for text in ("mov pc, r3", "ldr pc, [r0]", "ldr.w pc, [sp, #8]", "ldm r0, {r1, pc}", "add pc, r0"):
                self.assertEqual(self.refused(form, root=text), [f"ravelsickle_root+0x6: {text}: {self.REFUSED}"])

    def test_a_board_returns_in_many_ways(self):
        for form in self.THUMB:
            for text in ("bx lr", "pop {r4, pc}", "pop.w {r4, pc}", "ldmia.w sp!, {r4, pc}", "ldr.w pc, [sp], #4"):
                self.assertEqual((self.refused(form, last=text), len(self.check(form, root=text)[1].reached)), ([], 9), text)
            for text in ("bxeq lr", "popne {r4, pc}"):  # what comes next is reached too
                self.assertEqual((self.refused(form, last=text), len(self.check(form, root=text)[1].reached)), ([], 10), text)

    def test_where_no_instruction_begins(self):
        for text, processor in self.X86_64:
            for jump in ("jmp 1a <x>", "jne 0x1a <x>"):  # into the middle of another, in which there may be a third
                found = self.refused((text, processor), root=jump)
                self.assertEqual(found, [f"ravelsickle_root+0x14: {jump}: leads to where no instruction begins"])
            for last, before in [("1e", ["jp", "movq"]), ("9", ["nop:"])]:  # a section's end, behind which there is another section, or none
                found = self.refused((re.sub(rf"(?m)^ *{last}:\s+retq?\n", "", text), processor))
                self.assertEqual(sorted(line.split(" ")[1] for line in found), before)
                self.assertEqual({line.split(": ")[-1] for line in found}, {"leads to where no instruction begins"})
        for text, processor in self.THUMB:  # on into the data
            self.assertIn(".word", self.refused((text.replace("bx\tlr", "nop"), processor))[0])

    def test_a_missing_entry(self):
        for text, processor in self.X86_64 + self.THUMB:
            for other in (text.replace("ravelsickle_root", "ravelsickle_roots"), ""):
                self.assertEqual(self.refused((other, processor)), ["ravelsickle_root: not in the library"])

    def test_a_name_of_another_object_file(self):
        for text, processor in self.X86_64:
            more = text.replace("ravelsickle_root", "other_root").replace("{last}", "mul %rcx")
            self.assertEqual(self.refused((text + more, processor)), [])  # its own goes first
            without = text.replace("<root::last>:", "<root::least>:")
            self.assertEqual(self.refused((without + more, processor)), [f"root::last+0x4: mul %rcx: {self.REFUSED}"])

    def test_a_listing_that_is_not_understood(self):
        for text, processor in self.X86_64 + self.THUMB:
            with self.assertRaisesRegex(instructions.CannotCheck, r"not understood: \t\.\.\.$"):
                self.check((text + "\t...\n", processor))


class InstructionsCommand(unittest.TestCase):
    """The command, on what cannot be checked, and with scripts in place of disassemblers."""

    def setUp(self):
        directory = tempfile.TemporaryDirectory()
        self.addCleanup(directory.cleanup)
        self.root = pathlib.Path(directory.name)

    def command(self, data, *options):
        """The exit status, the output and the complaint, of which the file's name is left out."""
        library = self.root / "libkernel.a"
        library.write_bytes(data)
        words = [sys.executable, str(HERE / "instructions.py"), *options, str(library)]
        done = subprocess.run(words, capture_output=True, env={"PATH": str(self.root)})
        return done.returncode, done.stdout.decode(), done.stderr.decode().replace(f"{library}: ", "")

    def script(self, name, words):
        (self.root / name).write_text(f"#!/bin/sh\n{words}\n")
        (self.root / name).chmod(0o755)

    def head(self, number):
        """The head of an object file, as far as it is read, for a processor."""
        return b"\x7fELF" + bytes(14) + struct.pack("<H", number)

    def archive(self, *members):
        heads = [b"name/".ljust(48) + str(len(member)).encode().ljust(10) + b"`\n" for member in members]
        return b"!<arch>\n" + b"".join(head + member + b"\n" * (len(member) % 2) for head, member in zip(heads, members))

    def test_what_cannot_be_checked(self):
        for data, said in [
            (b"", "neither an archive nor an object file"),
            (b"!<thin>\n", "neither an archive nor an object file"),
            (self.head(62)[:18], "a damaged archive"),
            (self.archive(self.head(62))[:40], "a damaged archive"),
            (self.archive(b"text"), "no object files, or not all for one processor"),
            (self.archive(self.head(62), self.head(40)), "no object files, or not all for one processor"),
            (self.head(183), "for the processor with the number 183, and known are those of x86-64, 62, and Thumb, 40"),
            (self.archive(b"odd", self.head(62)), "no disassembler here can read it: install binutils-x86-64-linux-gnu or llvm"),
            (self.head(40), "no disassembler here can read it: install binutils-arm-none-eabi or llvm"),
        ]:
            self.assertEqual(self.command(data), (2, "", f"{said}\n"))
        self.assertEqual(self.command(self.head(40), "--put"), (2, "", "--put has instructions of x86-64, and this is for Thumb\n"))

    def test_wrong_usage(self):
        missing = self.root / "none"
        done = run("instructions.py", missing)
        self.assertEqual((done.returncode, done.stdout, done.stderr.decode()), (2, b"", f"{missing}: No such file or directory\n"))
        self.assertEqual(run("instructions.py").returncode, 2)
        status, output, complaint = self.command(self.head(62), "--may-call", "(")
        self.assertEqual((status, output), (2, ""))
        self.assertIn("argument --may-call: not a regular expression: ", complaint)

    def test_the_first_disassembler_that_can(self):
        (self.root / "listing").write_text(LLVM.format(root="nop", digits="nop", near="nop", last="nop"))
        self.script("objdump", "echo can not; exit 1")
        self.script("llvm-objdump-14", f"exec /bin/cat {self.root}/listing")
        passed = "ravelsickle_root: 17 instructions in 4 functions, and none multiplies, divides or calls out\n"
        self.assertEqual(self.command(self.head(62)), (0, passed, ""))

    def test_what_is_refused(self):
        (self.root / "listing").write_text(GNU.format(root="mul %rcx", digits="nop", near="nop", last="div %rcx"))
        self.script("objdump", f"exec /bin/cat {self.root}/listing")
        lines = [f"ravelsickle_root+0x14: mul %rcx: {Instructions.REFUSED}\n", f"root::last+0x4: div %rcx: {Instructions.REFUSED}\n"]
        for options in ([], ["--put"]):
            self.assertEqual(self.command(self.head(62), *options), (1, "", "".join(lines)))


@unittest.skipUnless(shutil.which("rt"), "there is no rt, in whose kit the compiler is")
class InstructionsOfBuilds(unittest.TestCase):
    """The check of instructions, on code that is built here, by each disassembler that there is."""

    CODE = """
        typedef unsigned long long u64;
        u64 outside(u64);
        static u64 bits(double x) { u64 b; __builtin_memcpy(&b, &x, 8); return b; }
        static __attribute__((noinline)) u64 helper(u64 x) { return x * (x ^ 3); }
        double ravelsickle_root(double x) {
            if (x != x) return x;
            u64 left = bits(x), found = 0;
            for (u64 bit = 1ull << 62; bit != 0; bit >>= 2) {
                u64 next = found + bit;
                found = (found >> 1) + (left < next ? 0 : bit);
                left -= left < next ? 0 : next;
            }
            found += PUT;
            __builtin_memcpy(&x, &found, 8);
            return x;
        }"""
    COMPARISON = "__aeabi_dcmp(eq|lt|le|ge|gt|un)"

    def setUp(self):
        directory = tempfile.TemporaryDirectory()
        self.addCleanup(directory.cleanup)
        self.object = pathlib.Path(directory.name) / "kernel.o"
        self.tools = pathlib.Path(shutil.which("rt")).resolve().parent.parent / "toolchain" / "bin"

    def build(self, put, *target):
        words = [self.tools / "clang", *(target or ["--target=x86_64-unknown-linux-gnu"]), "--no-default-config", "-fintegrated-cc1"]
        words += ["-ffreestanding", "-nostdinc", "-fno-math-errno", "-O2", "-ffunction-sections", "-w", f"-DPUT={put}", "-c", "-x", "c", "-", "-o", self.object]
        subprocess.run([str(word) for word in words], input=self.CODE.encode(), check=True)

    def refused(self, processor, may_call=""):
        """What is refused, by each disassembler here that can read the code."""
        by_tool = []
        for tool in filter(shutil.which, processor.disassemblers):
            try:
                text = instructions.disassemble(self.object, dataclasses.replace(processor, disassemblers=(tool,)))
            except instructions.CannotCheck:
                continue
            by_tool.append(instructions.check(instructions.Listing(text, processor), may_call).refused)
        return by_tool

    def assert_refused(self, processor, cases, *target):
        for put, wanted in cases:
            self.build(put, *target)
            for refused in self.refused(processor, self.COMPARISON):
                self.assertRegex("\n".join(refused.values()), wanted, put)

    def test_clean_code_passes(self):
        self.build("left")
        by_tool = self.refused(instructions.X86_64)
        self.assertEqual(by_tool, [{}] * max(len(by_tool), 1))
        done = run("instructions.py", self.object)
        self.assertRegex(done.stdout.decode(), "^ravelsickle_root: [0-9]+ instructions in 1 function, and none multiplies, divides or calls out\n$")
        self.assertEqual((done.returncode, done.stderr), (0, b""))

    def test_one_thing_put_in(self):
        cases = [
            ("left*bits(x)", r"^ravelsickle_root\+\w+: imulq? "),
            ("left/bits(x)", r"^ravelsickle_root\+\w+: div[lq]? "),
            ("bits(x*x)", r"^ravelsickle_root\+\w+: mulsd "),
            ("bits(__builtin_sqrt(x))", r"^ravelsickle_root\+\w+: sqrtsd "),
            ("outside(left)", r"^ravelsickle_root\+\w+: callq? outside: leads out of the library$"),
            ("helper(left)", r"^helper\+\w+: imulq? "),
        ]
        self.assert_refused(instructions.X86_64, cases)
        done = run("instructions.py", self.object)
        self.assertRegex(done.stderr.decode(), f"^helper.*: {Instructions.REFUSED}\n$")
        self.assertEqual((done.returncode, done.stdout), (1, b""))

    def test_one_thing_put_in_for_a_board(self):
        target = ["--target=thumbv7m-none-eabi", "-mcpu=cortex-m3"]
        self.build("left", *target)
        by_tool = self.refused(instructions.THUMB, self.COMPARISON)
        if not by_tool:
            self.skipTest("there is no disassembler for Thumb")
        self.assertEqual(by_tool, [{}] * len(by_tool))
        for refused in self.refused(instructions.THUMB):
            self.assertRegex("\n".join(refused.values()), r"^ravelsickle_root\+\w+: bl __aeabi_dcmpun: leads out of the library$")
        cases = [
            ("left*bits(x)", r"(?m)^ravelsickle_root\+\w+: umull "),
            ("left/bits(x)", r"^ravelsickle_root\+\w+: bl __aeabi_uldivmod: leads out"),
            ("bits(x*x)", r"^ravelsickle_root\+\w+: bl __aeabi_dmul: leads out"),
            ("helper(left)", r"(?m)^helper\+\w+: umull "),
        ]
        self.assert_refused(instructions.THUMB, cases, *target)

    def test_the_check_is_tried(self):
        self.build("left")
        library = self.object.with_name("libkernel.a")
        subprocess.run([str(self.tools / "llvm-ar"), "rcs", str(library), str(self.object)], check=True)
        done = run("instructions.py", "--put", library)
        self.assertEqual((done.returncode, done.stderr, done.stdout.decode().splitlines()[-1]), (0, b"", "10 of 10 found"))

    def test_what_is_not_found_where_it_is_put(self):
        self.build("left")
        put = [("imul", "480fafc1"), ("add", "4801c8"), ("mul", "48f7f1")]  # an addition, which is allowed, and a division
        words = f"import instructions, sys; instructions.PUT = {put}; sys.exit(instructions.main(['--put', sys.argv[1]]))"
        done = subprocess.run([sys.executable, "-c", words, str(self.object)], cwd=HERE, capture_output=True)
        found, addition, multiplication, division, last = done.stdout.decode().splitlines()
        self.assertRegex(found, r"^ravelsickle_root\+\w+: imulq? ")
        self.assertRegex(addition, r"^add, put over ravelsickle_root\+.*, is not found, and alone$")
        self.assertRegex(multiplication, r"^mul, put over ravelsickle_root\+.*, is not found, and alone$")
        self.assertRegex(division, r"^ravelsickle_root\+\w+: divq? ")
        self.assertEqual((done.returncode, done.stderr, last), (1, b"", "1 of 3 found"))


# Two entries and what they call, in one section: the first has a table of jumps, and the second runs on into what stands behind it.
FRAMES = """
image.elf:     file format elf32-littlearm


Disassembly of section .text:

00008000 <ravelsickle_first>:
    8000:\tstmdb\tsp!, {{r4, r5, r6, lr}}
    8004:\tsub\tsp, #24
    8006:\ttbb\t[pc, r0]
    800a:\t.short\t0x0603
    800c:\t.word\t0xbf000000
    8010:\tbl\t8030 <shallow>
    8014:\tb.n\t801a <ravelsickle_first+0x1a>
    8016:\tbl\t8040 <deep>
    801a:\t{first}
    801c:\tadd\tsp, #24
    801e:\tldmia.w\tsp!, {{r4, r5, r6, pc}}
    8022:\tmovs\tr0, r0

00008024 <ravelsickle_second>:
    8024:\tcmp\tr0, #0
    8026:\tstr.w\tr1, [sp, #-8]!

0000802a <behind>:
    802a:\tpush\t{{r4, lr}}
    802c:\t{second}
    802e:\tpop\t{{r4, pc}}

00008030 <shallow>:
    8030:\tsub.w\tsp, sp, #100
    8034:\tadd.w\tsp, sp, #100
    8038:\tldr.w\tpc, [sp], #8

00008040 <deep>:
    8040:\tvpush\t{{d8-d15}}
    8044:\tsub\tsp, #64
    8046:\tstmia.w\tsp, {{r0, r1}}
    804a:\t{deep}
    804c:\tvpop\t{{d8-d15}}
    8050:\tbx\tlr

00008060 <apart>:
    8060:\tmov\tsp, r0
    8062:\tbx\tlr
"""


class Frames(unittest.TestCase):
    """How deep the stack can get, on listings."""

    def tell(self, text=FRAMES, **put):
        places = dict.fromkeys(("first", "second", "deep"), "nop")
        return frames.tell(instructions.Listing(text.format(**{**places, **put}), instructions.THUMB))

    def test_the_deepest_chain_of_calls(self):
        self.assertEqual(self.tell(), "first 168\nsecond 16\n")  # 16 + 24, then 64 + 64, not 100; 8 + 8
        self.assertEqual(self.tell(second="bl 8030 <shallow>"), "first 168\nsecond 116\n")
        self.assertEqual(self.tell(deep="bne.n 8030 <shallow>"), "first 268\nsecond 16\n")

    def test_each_way_that_a_table_leads(self):
        without = FRAMES.replace("0x0603", "0x0303")  # both to the first
        self.assertEqual(self.tell(without), "first 140\nsecond 16\n")

    def test_what_no_bound_can_be_told_of(self):
        for text, why in [
            ("mov sp, r0", "sets the stack pointer to what is not known"),
            ("sub sp, r3", "sets the stack pointer to what is not known"),
            ("stmdb sp!, r3", "sets the stack pointer to what is not known"),
            ("blx r3", "leads to a place that is known only when it runs"),
            ("bl 9000 <elsewhere>", "leads to where no instruction begins"),
        ]:
            with self.assertRaisesRegex(instructions.CannotCheck, rf"^deep\+0xa: .*: {why}$"):
                self.tell(deep=text)
        with self.assertRaisesRegex(instructions.CannotCheck, "comes back to itself$"):
            self.tell(deep="bl 8000 <ravelsickle_first>")
        with self.assertRaisesRegex(instructions.CannotCheck, "there is no entry"):
            self.tell(FRAMES.replace("ravelsickle_", "other_"))

    def test_what_is_not_an_image_for_a_board(self):
        with tempfile.TemporaryDirectory() as directory:
            image = pathlib.Path(directory) / "image.elf"
            image.write_bytes(b"\x7fELF" + bytes(14) + struct.pack("<H", 62))
            done = run("frames.py", image)
            self.assertEqual((done.returncode, done.stdout, done.stderr.decode()), (2, b"", f"{image}: for x86-64, and not for Thumb\n"))
            done = run("frames.py", image.with_name("none.elf"))
            self.assertEqual((done.returncode, done.stdout), (2, b""))


class Gate(unittest.TestCase):
    """.ci/run in a repository of its own, with scripts in place of rt and of what it runs."""

    TALLY = "216 passed, 0 failed"
    OK = "rt: ok; handles allowed: none; must-fail edits: 2 refused; every proof and must-fail edit was done in this run"

    def setUp(self):
        directory = tempfile.TemporaryDirectory()
        self.addCleanup(directory.cleanup)
        self.root = pathlib.Path(directory.name)
        self.script("bin/python3", f'exec "{sys.executable}" "$@"')
        self.rt()
        self.script("tools/house", "echo house >>ran")
        self.script("bindings/run", 'echo "bindings $*" >>ran; echo 5 parts passed, 0 failed')
        self.write_test("pass")
        self.write_runs("pass")
        self.write_check("pass")
        for edit in ("base/must-fail/minus.edit", "base/must-fail/README.md", "over/must-fail/plus.edit"):
            (self.root / "crates" / edit).parent.mkdir(parents=True, exist_ok=True)
            (self.root / "crates" / edit).write_text("")
        (self.root / ".ci").mkdir()
        shutil.copy(ROOT / ".ci" / "run", self.root / ".ci" / "run")

    def script(self, name, words):
        path = self.root / name
        path.parent.mkdir(exist_ok=True)
        path.write_text(f"#!/bin/sh\n{words}\n")
        path.chmod(0o755)

    def rt(self, ci=f"echo '{OK}'; echo {TALLY}"):
        """The stand-in of rt."""
        self.script("bin/rt", f"echo \"rt $*\" >>ran\ncase $1 in\nci) {ci} ;;\nesac")

    def write_test(self, words):
        text = f"import unittest\n\nclass One(unittest.TestCase):\n    def test_one(self):\n        open('ran', 'a').write('tests\\n'); {words}\n"
        (self.root / "tools" / "test_one.py").write_text(text)

    def write_runs(self, words):
        (self.root / "tools" / "rowrun_runs.py").write_text(f"open('ran', 'a').write('runs\\n'); {words}\n")

    def write_check(self, words):
        text = f"import sys; open('ran', 'a').write(' '.join(['instructions', *sys.argv[1:]]) + '\\n'); {words}\n"
        (self.root / "tools" / "instructions.py").write_text(text)

    def gate(self, cwd="/", **more):
        """The gate's exit status, what it printed, on both streams, and which parts it ran."""
        path = os.pathsep.join([str(self.root / "bin"), "/usr/bin", "/bin"])
        options = {"stdin": subprocess.DEVNULL, "cwd": cwd, "env": {"PATH": path, "CI": "true", "PYTHONDONTWRITEBYTECODE": "1"}, **more}
        words = [str(self.root / ".ci" / "run")] if cwd == "/" else ["/bin/sh", ".ci/run"]
        done = subprocess.run(words, stdout=subprocess.PIPE, stderr=subprocess.STDOUT, **options)
        ran = (self.root / "ran").read_text().splitlines() if (self.root / "ran").exists() else []
        return done.returncode, done.stdout.decode(), ran

    ALL = ["house", "tests", "rt ci", "runs", "bindings "]
    ALL += ["instructions crates/kernel/out/libkernel.a", "instructions --put crates/kernel/out/libkernel.a"]

    def assert_fails(self, status, last, parts):
        found, said, ran = self.gate()
        self.assertEqual((found, said.splitlines()[-1], ran), (status, last, self.ALL[:parts]), said)

    def test_all_pass(self):
        status, said, ran = self.gate()
        self.assertEqual((status, said.splitlines()[-1], ran), (0, self.TALLY, self.ALL), said)
        self.assertEqual((self.root / "target" / "rt-ci.txt").read_text(), f"{self.OK}\n{self.TALLY}\n")

    def test_from_its_own_folder_and_with_a_search_path_for_cd(self):
        os.makedirs(self.root / "elsewhere" / ".ci")
        for more in ({}, {"env": dict(os.environ, PATH=f"{self.root / 'bin'}:/usr/bin:/bin", CDPATH=str(self.root / "elsewhere"))}):
            status, said, _ = self.gate(cwd=self.root, **more)
            self.assertEqual((status, said.splitlines()[-1]), (0, self.TALLY), said)

    def test_closed_input(self):
        self.rt(ci=f"cat; echo '{self.OK}'; echo {self.TALLY}")
        status, said, _ = self.gate(stdin=None, preexec_fn=lambda: os.close(0))
        self.assertEqual((status, said.splitlines()[-1]), (0, self.TALLY), said)

    def test_input_is_left_alone(self):
        self.rt(ci=f"cat; echo '{self.OK}'; echo {self.TALLY}")
        reader, writer = os.pipe()  # which never ends
        status, said, _ = self.gate(stdin=reader, timeout=60)
        os.close(reader)
        os.close(writer)
        self.assertEqual((status, said.splitlines()[-1]), (0, self.TALLY), said)

    def test_nothing_is_there_before_rt_ci(self):
        before = {path for path in self.root.rglob("*")}
        self.rt(ci=f"find . | sort >found; echo '{self.OK}'; echo {self.TALLY}")
        self.assertEqual(self.gate()[0], 0)
        found = {self.root / name for name in (self.root / "found").read_text().splitlines()}
        self.assertEqual(found - before - {self.root, self.root / "found", self.root / "ran"}, set())
        self.assertEqual(before - found, set())

    def test_the_rules_fail(self):
        self.script("tools/house", "echo house >>ran; echo a.rt:1: something; exit 1")
        self.assert_fails(1, "FAILED: the rules of the repository (status 1)", 1)

    def test_the_tests_fail(self):
        self.write_test("self.fail()")
        self.assert_fails(1, "FAILED: the tests of tools/ (status 1)", 2)

    def test_rt_ci_fails(self):
        for status in (1, 2, 3):
            self.rt(ci=f"echo rt: FAILED; echo 215 passed, 1 failed; exit {status}")
            self.assert_fails(status, "215 passed, 1 failed", 3)
            (self.root / "ran").unlink()
        self.assertIn("FAILED: everything proved, ", self.gate()[1])

    PROVED = "everything proved, every must-fail edit refused, every program run"

    def test_rt_ci_breaks_off(self):
        ok = f"echo '{self.OK}'"
        for ci, status in [
            ("echo rt: no toolchain >&2; exit 2", 2),
            (f"{ok}; echo {self.TALLY}; exit 1", 1),
            ("kill -9 $$", 137),
            (f"{ok}; echo {self.TALLY}; echo more", 1),
            (f"{ok}; echo '{self.TALLY} (base and the crates below alone: not the gate)'", 1),
            (f"{ok}; echo 'only {self.TALLY}'", 1),
            (f"echo {self.TALLY}", 1),
            (f"echo rt: okay; echo {self.TALLY}", 1),
            ("true", 1),
        ]:
            self.rt(ci=ci)
            self.assert_fails(status, f"FAILED: {self.PROVED} (status {status})", 3)
            (self.root / "ran").unlink()

    def test_must_fail_edits_that_show_nothing(self):
        rest = "done in this run: 1 of the 4 proofs (of crates and of their tests) and 1 of the 2 must-fail edits"
        for ok, more, wanted in [
            (f"rt: ok; handles allowed: none; must-fail edits: 2 refused, 1 of them only by a limit; {rest}", "", 0),
            (f"rt: ok; handles allowed: none; must-fail edits: 2 refused, 0 bad; {rest}", "", 0),
            (f"rt: ok; handles allowed: none; must-fail edits: 2 refused, 1 bad; {rest}", "", 1),
            (f"rt: ok; handles allowed: none; must-fail edits: 2 refused, 10 bad; {rest}", "", 1),
            (f"rt: ok; handles allowed: none; must-fail edits: 1 refused, 1 of them only by a limit, 1 bad; {rest}", "", 1),
            (f"rt: ok; handles allowed: none; must-fail edits: 1 refused; {rest}", "", 1),
            (f"rt: ok; handles allowed: none; {rest}", "", 1),
            (self.OK, "rt: base/minus: BAD EDIT: its old text stands there 2 times", 1),
            (self.OK, "rt: base/minus: NOT TRIED: its check was killed", 1),
        ]:
            self.rt(ci=f"echo '{more}'; echo '{ok}'; echo {self.TALLY}")
            with self.subTest(ok=ok, more=more):
                status, said, _ = self.gate()
                self.assertEqual((status, said.splitlines()[-1]), (wanted, f"FAILED: {self.PROVED} (status 1)" if wanted else self.TALLY), said)

    def test_the_runs_fail(self):
        self.write_runs("raise SystemExit(1)")
        self.assert_fails(1, "FAILED: rowrun where reading or writing does not go well (status 1)", 4)

    def test_the_bindings_fail(self):
        self.script("bindings/run", "echo bindings >>ran; echo 4 parts passed, 1 failed; exit 1")
        status, said, _ = self.gate()
        self.assertEqual((status, said.splitlines()[-1]), (1, "FAILED: the bindings, on the library that was proved (status 1)"))

    def test_the_root_fails(self):
        for words, status, parts in [("sys.exit(1)", 1, 6), ("sys.exit(2)", 2, 6), ("sys.exit('--put' in sys.argv)", 1, 7)]:
            self.write_check(words)
            self.assert_fails(status, f"FAILED: the root without a multiply or a divide, in the library that was proved (status {status})", parts)
            (self.root / "ran").unlink()

    def test_no_rt(self):
        (self.root / "bin" / "rt").unlink()
        if shutil.which("rt", path="/usr/bin:/bin"):
            self.skipTest("rt stands among the commands of the system")
        self.assert_fails(127, f"FAILED: {self.PROVED} (status 127)", 2)

    def test_output_is_shown_as_it_comes(self):
        self.rt(ci=f"echo one; until [ -f seen ]; do sleep 0.05; done; echo '{self.OK}'; echo {self.TALLY}")
        environment = {"PATH": f"{self.root / 'bin'}:/usr/bin:/bin"}
        with subprocess.Popen([str(self.root / ".ci" / "run")], stdout=subprocess.PIPE, stderr=subprocess.STDOUT, env=environment) as running:
            said = ""
            while not said.endswith("\none\n"):
                said += running.stdout.readline().decode()
            (self.root / "seen").touch()  # the gate has not ended, and what rt said so far is there
            said += running.stdout.read().decode()
        self.assertEqual((running.returncode, said.splitlines()[-1]), (0, self.TALLY))

    def test_closed_output(self):
        self.rt(ci=f"sleep 0.3; echo '{self.OK}'; echo {self.TALLY}; exit 0")
        with subprocess.Popen([str(self.root / ".ci" / "run")], stdout=subprocess.PIPE, stderr=subprocess.PIPE, env={"PATH": f"{self.root / 'bin'}:/usr/bin:/bin"}) as running:
            running.stdout.close()
            running.stderr.read()
        self.assertNotEqual(running.returncode, 0)

    def test_it_is_plain_sh(self):
        text = (ROOT / ".ci" / "run").read_text()
        self.assertTrue(text.startswith("#!/bin/sh\n"))
        checker = shutil.which("shellcheck")
        if checker is None:
            self.skipTest("there is no shellcheck")
        done = subprocess.run([checker, "-s", "sh", str(ROOT / ".ci" / "run")], stdout=subprocess.PIPE)
        self.assertEqual((done.returncode, done.stdout), (0, b""))


class Geometry(unittest.TestCase):
    def test_the_typical_size_is_that_of_most_rows(self):
        for distances, wanted in [((1e8, 2e8, 3e8, 1), 1e8), ((1, 1e24), 1), ((1e-9, 5), 5), ((0, 0), 1)]:
            planes = [plane.HalfPlane(0, 1.0, 0.0, distance) for distance in distances]
            self.assertAlmostEqual(plane.typical_size(planes) / wanted, 1)

    def test_ticks_are_round_and_inside(self):
        self.assertEqual(plane.ticks(-0.3, 1.25, 6), [-0.2, 0.0, 0.2, 0.4, 0.6, 0.8, 1.0, 1.2])
        self.assertEqual(plane.ticks(0, 1e24, 5), [0, 2e23, 4e23, 6e23, 8e23, 1e24])

    def test_half_planes_have_length_one(self):
        for a, b, c, distance in [(3, 4, 10, 2), (3e300, 4e300, 1e301, 2), (3e-300, -4e-300, 1e-299, 2), (1.2e308, 1.6e308, 1.6e308, 0.8)]:
            found, why = plane.half_plane(5, (a, b, c), 0)
            self.assertIsNone(why)
            self.assertEqual(found.number, 5)
            self.assertAlmostEqual(found.nx, 0.6)
            self.assertAlmostEqual(found.ny, math.copysign(0.8, b))
            self.assertAlmostEqual(found.distance, distance)

    def test_clipping(self):
        self.assertEqual(plane.clip(plane.UNIT_SQUARE, (1, 0, 2)), plane.UNIT_SQUARE)
        self.assertEqual(plane.clip(plane.UNIT_SQUARE, (1, 0, -math.inf)), [])
        half = plane.clip(plane.UNIT_SQUARE, (1, 0, 0.5), 0.0)
        self.assertEqual(sorted(half), [(0, 0), (0, 1), (0.5, 0), (0.5, 1)])

    def test_segments(self):
        self.assertEqual(plane.segment_in_box((-1, 0.5), (3, 0.5), (0, 0, 1, 1)), [(0, 0.5), (1, 0.5)])
        self.assertIsNone(plane.segment_in_box((-1, 1.5), (3, 1.5), (0, 0, 1, 1)))
        self.assertIsNone(plane.segment_in_box((-1, 0), (0, 2.5), (0, 0, 1, 1)))


if __name__ == "__main__":
    unittest.main()
