#!/usr/bin/env python3
# Needs Python 3.8 or newer, and nothing else.
"""Turns text into the records that rowrun reads, and records back into text, without losing a bit."""

import command  # first: it says so where Python is too old

import argparse
import codecs
import struct
from dataclasses import dataclass, field

HEADER = struct.Struct("<IH")  # length of the body, kind of the record
FRONT = struct.Struct("<6QB")  # tolerance, scale, x0, y0 as bits; skip, allowance; normalise
ROW = struct.Struct("<3Q")  # a, b, c as bits
PROBLEM_KIND = 1
LARGEST_WORD = 2**64 - 1
LARGEST_BODY = 2**32 - 1
LARGEST_KIND = 2**16 - 1
EXPONENT_BITS = 0x7FF0000000000000
FRACTION_BITS = 0x000FFFFFFFFFFFFF
PLAIN_NAN = 0x7FF8000000000000  # the one NaN that the text calls "nan"


class TextError(Exception):
    """What is wrong in a text, and where."""

    def __init__(self, name, line, what):
        super().__init__(f"{name}:{line}: {what}")


def bits_of(number):
    """The 64 bits of a float, as a whole number."""
    return struct.unpack("<Q", struct.pack("<d", number))[0]


def float_of(bits):
    """The float that has these 64 bits."""
    return struct.unpack("<d", struct.pack("<Q", bits))[0]


@dataclass
class Problem:
    """A well-formed record of kind 1. Floats are kept as bits, so that every NaN survives."""

    tolerance: int = bits_of(1e-9)
    scale: int = bits_of(10.0)
    start: tuple = (bits_of(0.0), bits_of(1e6))
    skip: int = 0
    allowance: int = 1000000
    normalise: int = 0
    rows: list = field(default_factory=list)

    def float_rows(self):
        """The rows as triples of floats."""
        return [tuple(map(float_of, row)) for row in self.rows]

    def to_bytes(self):
        body = FRONT.pack(self.tolerance, self.scale, *self.start, self.skip, self.allowance, self.normalise)
        body += b"".join(ROW.pack(*row) for row in self.rows)
        return HEADER.pack(len(body), PROBLEM_KIND) + body

    def to_text(self):
        start = ",".join(map(write_number, self.start))
        lines = [
            f"lp tolerance={write_number(self.tolerance)} scale={write_number(self.scale)} start={start}"
            f" skip={self.skip} allowance={self.allowance} normalise={self.normalise}"
        ]
        lines += [" ".join(map(write_number, row)) for row in self.rows]
        return "\n".join(lines) + "\n"


@dataclass
class Raw:
    """A whole record that is not a well-formed problem."""

    kind: int
    body: bytes

    def to_bytes(self):
        return HEADER.pack(len(self.body), self.kind) + self.body

    def to_text(self):
        return f"raw kind={self.kind} body={self.body.hex().upper()}\n"


@dataclass
class Tail:
    """What is left when the end of the input cuts a record, its header included."""

    rest: bytes

    def to_bytes(self):
        return self.rest

    def to_text(self):
        return f"tail {self.rest.hex().upper()}\n"


# Records to text


def write_number(bits):
    """A number as text that read_number turns into the same bits."""
    is_nan = bits & EXPONENT_BITS == EXPONENT_BITS and bits & FRACTION_BITS != 0
    if is_nan and bits != PLAIN_NAN:
        return f"={bits:016X}"
    return repr(float_of(bits))


def read_body(kind, body):
    """The record with this kind and body: a Problem where it is well formed, otherwise Raw."""
    if kind != PROBLEM_KIND or len(body) < FRONT.size or (len(body) - FRONT.size) % ROW.size:
        return Raw(kind, body)
    tolerance, scale, x0, y0, skip, allowance, normalise = FRONT.unpack_from(body)
    if normalise > 1:
        return Raw(kind, body)
    rows = list(ROW.iter_unpack(body[FRONT.size :]))
    return Problem(tolerance, scale, (x0, y0), skip, allowance, normalise, rows)


def read_records(data):
    """The records of a stream, in order; a cut end is the last one, a Tail."""
    records = []
    place = 0
    while place < len(data):
        if len(data) - place < HEADER.size:
            records.append(Tail(data[place:]))
            break
        length, kind = HEADER.unpack_from(data, place)
        end = place + HEADER.size + length
        if end > len(data):
            records.append(Tail(data[place:]))
            break
        records.append(read_body(kind, data[place + HEADER.size : end]))
        place = end
    return records


def write_records(records):
    """The stream that holds these records."""
    return b"".join(record.to_bytes() for record in records)


def format_text(records):
    """The text of these records, each under a comment with its number as rowrun counts it."""
    return "\n".join(f"# record {number}\n{record.to_text()}" for number, record in enumerate(records, 1))


# Text to records


def read_number(word):
    """The bits of a number: as float() reads it, a hex float such as 0x1.8p3, or =3FF0000000000000."""
    try:
        if word.startswith("="):
            return read_bits(word[1:])
        if "0x" in word.lower():
            return bits_of(float.fromhex(word))
        return bits_of(float(word))
    except (ValueError, OverflowError):
        raise ValueError(f"'{word}' is not a number") from None


def read_bits(digits):
    """The whole number of exactly 16 hex digits."""
    if len(digits) != 16 or not all(digit in "0123456789abcdefABCDEF" for digit in digits):
        raise ValueError("not 16 hex digits")
    return int(digits, 16)


def read_whole(word, largest):
    """A whole number from 0 to largest, in decimal digits."""
    if not (word.isascii() and word.isdigit()) or int(word) > largest:
        raise ValueError(f"'{word}' is not a whole number from 0 to {largest}")
    return int(word)


def read_start(word):
    """The two coordinates of a warm start, x,y."""
    parts = word.split(",")
    if len(parts) != 2:
        raise ValueError(f"start is two numbers x,y, not '{word}'")
    return tuple(map(read_number, parts))


def read_hex(word):
    """Bytes from pairs of hex digits."""
    try:
        return bytes.fromhex(word)
    except ValueError:
        raise ValueError("the bytes are not pairs of hex digits") from None


# How the value after each key of a line is read.
PROBLEM_KEYS = {
    "tolerance": read_number,
    "scale": read_number,
    "start": read_start,
    "skip": lambda word: read_whole(word, LARGEST_WORD),
    "allowance": lambda word: read_whole(word, LARGEST_WORD),
    "normalise": lambda word: read_whole(word, 1),
}
RAW_KEYS = {"kind": lambda word: read_whole(word, LARGEST_KIND), "body": read_hex}


def read_keys(words, readers):
    """The values of key=value words, each key at most once."""
    values = {}
    for word in words:
        key, equals, value = word.partition("=")
        if not equals:
            raise ValueError(f"'{word}' is not key=value")
        if key not in readers:
            raise ValueError(f"unknown key '{key}', known are {', '.join(readers)}")
        if key in values:
            raise ValueError(f"'{key}' is given twice")
        values[key] = readers[key](value)
    return values


def read_row(line):
    """The bits of the three numbers of a row, between blanks or between commas."""
    words = [word.strip() for word in line.split(",")] if "," in line else line.split()
    if len(words) != 3:
        raise ValueError(f"a row is three numbers a b c, here stand {len(words)}")
    return tuple(map(read_number, words))


def read_raw(words):
    """The record of a line raw kind=K body=HEX."""
    values = read_keys(words, RAW_KEYS)
    if len(values) != len(RAW_KEYS):
        raise ValueError("raw needs both kind=K and body=HEX")
    return Raw(values["kind"], values["body"])


def read_tail(words):
    """The cut end of a line tail HEX."""
    if len(words) != 1:
        raise ValueError("tail needs its bytes as one word of hex digits")
    return Tail(read_hex(words[0]))


def read_line(line, records):
    """Adds what a line without comment says to the records read before it."""
    words = line.split()
    if not words:
        return
    if records and isinstance(records[-1], Tail):
        raise ValueError("nothing can follow a tail")
    if words[0] == "lp":
        records.append(Problem(**read_keys(words[1:], PROBLEM_KEYS)))
    elif words[0] == "raw":
        records.append(read_raw(words[1:]))
    elif words[0] == "tail":
        records.append(read_tail(words[1:]))
    elif records and isinstance(records[-1], Problem):
        add_row(records[-1], read_row(line))
    else:
        raise ValueError("a row needs a line 'lp' before it")


def add_row(problem, row):
    """Adds a row, unless the length of the body would not fit its four bytes."""
    if FRONT.size + ROW.size * (len(problem.rows) + 1) > LARGEST_BODY:
        raise ValueError("more rows than a record can hold")
    problem.rows.append(row)


def parse_text(data, name, before=()):
    """The records of a text given as bytes; a tail among those before it leaves no room for more."""
    records = list(before[-1:]) if before and isinstance(before[-1], Tail) else []
    kept_from = len(records)
    text = data[len(codecs.BOM_UTF8) :] if data.startswith(codecs.BOM_UTF8) else data
    for number, line in enumerate(text.split(b"\n"), 1):
        try:
            read_line(line.decode("utf-8").partition("#")[0], records)
        except UnicodeDecodeError:
            raise TextError(name, number, "not text in UTF-8") from None
        except ValueError as wrong:
            raise TextError(name, number, wrong) from None
    return records[kept_from:]


# The command


def pack(names):
    """Packs texts, all or none of them: the first error of each is named."""
    records = []
    failed = False
    for name in names:
        try:
            records += parse_text(command.read_input(name), "standard input" if name == "-" else name, records)
        except TextError as wrong:
            failed = True
            command.complain(wrong)
    return 2 if failed else command.write_output(write_records(records))


def unpack(name):
    """Unpacks a stream of records."""
    return command.write_output(format_text(read_records(command.read_input(name))).encode())


def main(arguments=None):
    parser = argparse.ArgumentParser(description=__doc__)
    commands = parser.add_subparsers(dest="command", required=True)
    packing = commands.add_parser("pack", help="text to records")
    packing.add_argument("files", nargs="*", metavar="FILE", help="texts, standard input if there are none")
    unpacking = commands.add_parser("unpack", help="records to text")
    unpacking.add_argument("file", nargs="?", default="-", metavar="FILE", help="records, else standard input")
    chosen = parser.parse_args(arguments)
    try:
        return pack(chosen.files or ["-"]) if chosen.command == "pack" else unpack(chosen.file)
    except OSError as wrong:
        command.complain(command.say_failure(wrong))
        return 2


if __name__ == "__main__":
    command.run(main)
