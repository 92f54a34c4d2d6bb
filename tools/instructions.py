#!/usr/bin/env python3
# Needs Python 3.8 or newer, and a disassembler: objdump, GNU's or LLVM's.
"""Shows in machine code that the square root is worked out with comparison, addition, subtraction, shifts and masks alone.

It begins at ravelsickle_root in a library, for x86-64 or for Thumb, and follows every jump and every call. Each instruction that
can be reached so must be of a kind that is allowed, and none may lead out of the library, or to a place that is known only when
it runs; that a return goes back to behind its call is taken for granted. Ends with 1 where one is refused, and says which.

--put tries the check: it puts multiplications, divisions and the like into copies of the library, and each has to be found."""

import command  # first: it says so where Python is too old

import argparse
import os
import pathlib
import re
import shutil
import struct
import subprocess
import tempfile
from dataclasses import dataclass, field

ENTRY = "ravelsickle_root"
NOT_ALLOWED = "not comparison, addition, subtraction, shift or mask"
NOT_KNOWN = "leads to a place that is known only when it runs"
NOT_CODE = "leads to where no instruction begins"
NOT_HERE = "leads out of the library"


class CannotCheck(Exception):
    """Why nothing can be said of a library."""


# Processors


@dataclass(frozen=True)
class Processor:
    """How code for a processor reads in a listing: patterns of whole instructions, or of their first words."""

    name: str
    packages: str  # in which there is a disassembler
    disassemblers: tuple
    comment: str  # what begins a comment
    allowed: str  # instructions that go on to the next one
    jumps: str  # first words of jumps and calls
    returns: str  # instructions that go back to the caller
    final: str  # first words of jumps and returns that never go on to the next instruction
    addend: int  # listed behind a name, where a jump leads to its very place; 0: none is listed, and no jump names a section


LLVM = ("llvm-objdump",) + tuple(f"llvm-objdump-{version}" for version in range(30, 10, -1))

IF = "(?:n?(?:ae?|be?|c|e|ge?|le?|o|p|s|z)|p[eo])"  # the conditions of x86-64
X86_64_ALLOWED = (
    "(?:mov|xchg|push|pop)[bwlq]?|movabsq?|mov[sz][bwl][wlq]|cltq|cltd|cqto",  # moves; xchg %ax,%ax does nothing
    "mov(?:[dq]|s[sd]|[au]p[sd]|dq[au])",  # moves of floats, and between them and integers
    "(?:cmp|test|bt)[bwlq]?|u?comis[sd]|cmp(?:n?eq|n?l[te]|(?:un)?ord)?[sp][sd]",  # comparison, of floats too
    "(?:add|adc|sub|sbb|inc|dec|neg|lea)[bwlq]?",  # addition and subtraction; lea adds what it may have shifted
    "(?:sh[lr]|sa[lr]|ro[lr]|rc[lr]|sh[lr]d)[bwlq]?|(?:sh[lr]|sar|ror)x[lq]?",  # shifts and rotates
    "(?:and|andn|or|xor|not)[bwlq]?|(?:and|andn|or|xor)p[sd]|p(?:and|andn|or|xor)",  # masks, of floats too
    "(?:bs[fr]|[lt]zcnt)[wlq]?",  # how many zeros lead or trail
    f"cmov{IF}[wlq]?|set{IF}",  # selection
    "(?:data16 |cs )*nop[wlq]?|endbr64",  # nothing
)
X86_64 = Processor(
    name="x86-64",
    packages="binutils-x86-64-linux-gnu or llvm",
    disassemblers=("x86_64-linux-gnu-objdump", "objdump") + LLVM,
    comment="#",
    allowed=f"(?:{'|'.join(X86_64_ALLOWED)})(?: .*)?",
    jumps=f"(?:call|jmp)q?|j{IF}",
    returns="retq?",
    final="(?:jmp|ret)q?",
    addend=-4,
)

WHEN = "(?:eq|ne|cs|hs|cc|lo|mi|pl|vs|vc|hi|ls|ge|lt|gt|le)?"  # the conditions of Arm
WIDE = r"(?:\.[nw])?"  # whether it has two bytes or four, where that is said
THUMB_ALLOWED = (
    rf"(?:mov|mvn)s?{WHEN}{WIDE}|(?:mov[wt]|adr|(?:ld|st)r[bhd]?|ldrs[bh]|(?:ld|st)m(?:ia|db)?|push|pop){WHEN}{WIDE}",  # moves
    rf"v(?:mov|(?:ld|st)r|(?:ld|st)m(?:ia|db)?|push|pop|mrs){WHEN}(?:\.[fisu]?(?:8|16|32|64))?",  # moves of floats and of flags
    rf"(?:cmp|cmn|tst|teq){WHEN}{WIDE}|vcmpe?{WHEN}\.f(?:32|64)",  # comparison
    rf"(?:add|adc|sub|sbc|rsb|neg)s?{WHEN}{WIDE}|(?:add|sub)w{WHEN}",  # addition and subtraction
    rf"(?:lsl|lsr|asr|ror|rrx)s?{WHEN}{WIDE}",  # shifts and rotates
    rf"(?:and|orr|eor|bic|orn)s?{WHEN}{WIDE}|(?:bfc|bfi|[us]bfx|[us]xt[bh]){WHEN}{WIDE}",  # masks
    rf"(?:clz|rbit){WHEN}",  # how many zeros lead or trail
    rf"it[te]{{0,3}}|nop{WIDE}",  # selection, nothing
)
THUMB = Processor(
    name="Thumb",
    packages="binutils-arm-none-eabi or llvm",
    disassemblers=("arm-none-eabi-objdump", "objdump") + LLVM,
    comment="[@;]",
    allowed=rf"(?!\S+ pc\b|.*\bpc\}})(?:{'|'.join(THUMB_ALLOWED)})(?: .*)?",  # what writes pc jumps
    jumps=f"bl?{WHEN}{WIDE}|cbn?z|bl?x{WHEN}|tb[bh]",
    returns=rf"bx{WHEN} lr|(?:pop{WHEN}{WIDE}|ldm(?:ia)?{WHEN}{WIDE} sp!,) \{{.*\bpc\}}|ldr{WHEN}{WIDE} pc, \[sp\], #\d+",
    final=f"(?:b|bx|tb[bh]|pop|ldm|ldmia|ldr){WIDE}",
    addend=0,
)
PROCESSORS = {62: X86_64, 40: THUMB}  # by the number in the head of an object file (e_machine)


# Libraries


def objects_of(data):
    """Where each object file begins in an archive, or in an object file alone."""
    if data.startswith(b"\x7fELF"):
        return [0]
    if not data.startswith(b"!<arch>\n"):
        raise CannotCheck("neither an archive nor an object file")
    begins, at = [], 8
    while at < len(data):
        begin = at + 60  # behind the member's head, in which the size is
        if data.startswith(b"\x7fELF", begin):
            begins.append(begin)
        size = int(data[at + 48 : at + 58])
        at = begin + size + size % 2
    return begins


def processor_of(data):
    """The processor that all object files of a library are for."""
    try:
        numbers = {struct.unpack_from("<H", data, begin + 18)[0] for begin in objects_of(data)}
    except (ValueError, struct.error):
        raise CannotCheck("a damaged archive") from None
    if len(numbers) != 1:
        raise CannotCheck("no object files, or not all for one processor")
    number = numbers.pop()
    if number not in PROCESSORS:
        raise CannotCheck(f"for the processor with the number {number}, and known are those of x86-64, 62, and Thumb, 40")
    return PROCESSORS[number]


def offset_of(data, function):
    """Where the first byte of a function stands in a library for x86-64, by the table of symbols of the object file that has it."""
    for begin in objects_of(data):
        table, size, number = struct.unpack_from("<Q10xHH", data, begin + 40)
        sections = [struct.unpack_from("<4xI16xQQI", data, begin + table + size * index) for index in range(number)]
        for kind, offset, length, names in sections:
            for symbol in range(begin + offset, begin + offset + length, 24) if kind == 2 else ():
                name, section, value = struct.unpack_from("<I2xHQ", data, symbol)
                if 0 < section < number and data.startswith(function.encode() + b"\0", begin + sections[names][1] + name):
                    return begin + sections[section][1] + value
    raise CannotCheck(f"there is no symbol {function}")


# Listings


@dataclass
class Instruction:
    """A line of a listing. A place is the number of a section, and an address in it."""

    place: tuple
    function: str  # under whose name it stands
    offset: int  # from where the function begins
    text: str
    symbol: str = ""  # the name whose place the linker fills in, where it does
    addend: int = 0  # and what it adds to the place
    next: tuple = None  # the place of the next instruction in the section

    @property
    def word(self):
        """Its first word."""
        return self.text.partition(" ")[0]

    def __str__(self):
        text = f"{self.word} {self.symbol}" if self.symbol and WAY.fullmatch(self.text) else self.text
        return f"{self.function}+{self.offset:#x}: {text}"


FILE = re.compile(r".*:\s+file format \S+")
SECTION = re.compile(r"Disassembly of section (.*):")
HEADING = re.compile(r"([0-9a-f]+) <(.*)>:")
LINE = re.compile(r"\s*([0-9a-f]+):\s+(.*)")
SYMBOL = re.compile(r"R_\w+\s+(.*?)([+-]0x[0-9a-f]+)?")  # R_X86_64_PLT32 NAME-0x4
WAY = re.compile(r"\S+ (?:r\d+, )?(?:0x)?([0-9a-f]+)(?: <.*>)?")  # of a jump: jne 1a <NAME+0x1a>, jne 0x1a <NAME+0x1a>, cbz r0, 1a


class Listing:
    """The instructions of a library, by their places, and the places of each name."""

    def __init__(self, text, processor):
        self.processor = processor
        self.instructions = {}
        self.names = {}
        self.files = []  # the number of the object file that each section stands in
        file, function, start, last = 0, "", 0, None
        for line in text.split("\n"):
            if FILE.fullmatch(line):
                file += 1
            elif SECTION.fullmatch(line):
                self.files.append(file)
                last = None
                if processor.addend:
                    self.add_name(SECTION.fullmatch(line)[1], 0)
            elif HEADING.fullmatch(line):
                address, name = HEADING.fullmatch(line).groups()
                if not name.startswith("$"):  # such a name tells code from data
                    function, start = name, int(address, 16)
                    self.add_name(name, start)
            elif LINE.fullmatch(line):
                last = self.read_line(*LINE.fullmatch(line).groups(), function, start, last)
            elif line and not re.match(rf"In archive |\s+{processor.comment}", line):
                raise CannotCheck(f"the disassembler prints what is not understood: {line}")

    def add_name(self, name, address):
        self.names.setdefault(name, []).append((len(self.files) - 1, address))

    def read_line(self, address, text, function, start, last):
        """Reads an instruction, or what the linker fills in in the one before. The last instruction so far."""
        symbol = SYMBOL.fullmatch(text)
        if symbol:
            last.symbol, last.addend = symbol[1], int(symbol[2] or "0", 16)
            return last
        place = (len(self.files) - 1, int(address, 16))
        text = " ".join(re.sub(rf"\s+{self.processor.comment}.*", "", text).split())
        self.instructions[place] = Instruction(place, function, place[1] - start, text)
        if last:
            last.next = place
        return self.instructions[place]

    def places_of(self, name, file=None):
        """The places of a name: those in an object file, or, if it has none, those in all the others."""
        places = self.names.get(name, [])
        return [place for place in places if self.files[place[0]] == file] or places

    def targets(self, instruction):
        """The places that a jump or a call leads to; none where that is out of the library."""
        section, _ = instruction.place
        if instruction.symbol:
            places = self.places_of(instruction.symbol, self.files[section])
            return [(section, address + instruction.addend - self.processor.addend) for section, address in places]
        return [(section, int(WAY.fullmatch(instruction.text)[1], 16))]


def disassemble(path, processor):
    """The listing of a library, by the first disassembler that can read it."""
    for tool in filter(shutil.which, processor.disassemblers):
        words = [tool, "-d", "-r", "-z", "--no-show-raw-insn", os.path.abspath(path)]
        done = subprocess.run(words, stdout=subprocess.PIPE, stderr=subprocess.DEVNULL, env=dict(os.environ, LC_ALL="C"))
        if done.returncode == 0:
            return done.stdout.decode("utf-8", "replace")
    raise CannotCheck(f"no disassembler here can read it: install {processor.packages}")


# The check


@dataclass
class Result:
    """What the check found."""

    reached: dict = field(default_factory=dict)  # the places that each instruction leads to, by its own
    called: set = field(default_factory=set)  # the names outside the library that jumps and calls lead to
    refused: dict = field(default_factory=dict)  # what is said of an instruction that is refused, by its place


def follow(listing, instruction, may_call, result):
    """The places that an instruction leads to, and why it is refused, None where it is not. A name outside is noted in the result."""
    processor, text, word = listing.processor, instruction.text, instruction.word
    is_return, is_jump = re.fullmatch(processor.returns, text), re.fullmatch(processor.jumps, word)
    leads = [] if (is_return or is_jump) and re.fullmatch(processor.final, word) else [instruction.next]
    if is_return:
        return leads, None
    if not is_jump:
        return leads, None if re.fullmatch(processor.allowed, text) else NOT_ALLOWED
    if not WAY.fullmatch(text):
        return leads, NOT_KNOWN
    targets = listing.targets(instruction)
    if not targets:
        result.called.add(instruction.symbol)
        return leads, None if re.fullmatch(may_call, instruction.symbol) else NOT_HERE
    return leads + targets, None


def check(listing, may_call=""):
    """Follows the code from the entry on. Out of the library it may go to a name of which all matches a pattern."""
    result = Result()
    waiting = [place for place in listing.places_of(ENTRY) if place in listing.instructions]
    if not waiting:
        result.refused[None] = f"{ENTRY}: not in the library"
    while waiting:
        place = waiting.pop()
        if place in result.reached:
            continue
        instruction = listing.instructions[place]
        leads, why = follow(listing, instruction, may_call, result)
        there = [lead for lead in leads if lead in listing.instructions]
        if len(there) < len(leads):
            why = why or NOT_CODE
        if why:
            result.refused[place] = f"{instruction}: {why}"
        result.reached[place] = there
        waiting += there
    return result


def say_passed(listing, result):
    """What is said of code in which nothing is refused."""
    functions = len({(place[0], listing.instructions[place].function) for place in result.reached})
    counted = f"{len(result.reached)} instructions in {functions} function{'s' * (functions > 1)}"
    but = f", but for calls of {', '.join(sorted(result.called))}" if result.called else ""
    return f"{ENTRY}: {counted}, and none multiplies, divides or calls out{but}\n"


# The check tried

PUT = (  # instructions of x86-64 that are not allowed, and their bytes
    ("imul", "48 0f af c1"),
    ("mul", "48 f7 e1"),
    ("div", "48 f7 f1"),
    ("idiv", "48 f7 f9"),
    ("mulsd", "f2 0f 59 c1"),
    ("divsd", "f2 0f 5e c1"),
    ("sqrtsd", "f2 0f 51 c1"),
    ("mulpd", "66 0f 59 c1"),
    ("vfmadd213sd", "c4 e2 f1 a9 c2"),
    ("call", "ff d0"),  # to where a register says
)
NOP = b"\x90"  # one byte that does nothing


def put(data, listing, result, may_call=""):
    """Puts each of those instructions over one that was reached, in a copy of the library. What is said, and whether all are found."""
    reached = [(listing.instructions[place], leads) for place, leads in sorted(result.reached.items())]
    said, count = [], 0
    for number, (name, code) in enumerate(PUT):
        code = bytes.fromhex(code)
        # over one that is as long, neither jumps nor returns, and that the linker leaves alone; now here, now there
        fitting = [old for old, leads in reached if leads == [old.next] and not old.symbol and old.next[1] - old.place[1] >= len(code)]
        if not fitting:
            raise CannotCheck(f"no instruction is as long as {name}, which is to be put over one")
        old = fitting[number * len(fitting) // len(PUT)]
        begin = offset_of(data, old.function) + old.offset
        end = begin + old.next[1] - old.place[1]
        with tempfile.TemporaryDirectory() as directory:
            copy = pathlib.Path(directory) / "copy.a"
            copy.write_bytes(data[:begin] + code.ljust(end - begin, NOP) + data[end:])
            refused = check(Listing(disassemble(copy, X86_64), X86_64), may_call).refused
        is_found = list(refused) == [old.place] and re.search(rf"\+{old.offset:#x}: {name}[lq]? ", refused[old.place])
        said += refused.values() if is_found else [f"{name}, put over {old}, is not found, and alone", *refused.values()]
        count += bool(is_found)
    return "".join(f"{line}\n" for line in said) + f"{count} of {len(PUT)} found\n", count == len(PUT)


# The command


def pattern(text):
    """A pattern that was given, if it is one."""
    try:
        return re.compile(text)
    except re.error as wrong:
        raise argparse.ArgumentTypeError(f"not a regular expression: {wrong}") from None


def run(chosen):
    """Checks the library that was chosen. The exit status."""
    data = pathlib.Path(chosen.library).read_bytes()
    processor = processor_of(data)
    if chosen.put and processor is not X86_64:
        raise CannotCheck(f"--put has instructions of x86-64, and this is for {processor.name}")
    listing = Listing(disassemble(chosen.library, processor), processor)
    result = check(listing, chosen.may_call)
    for _, line in sorted(result.refused.items()):
        command.complain(line)
    if result.refused:
        return 1
    said, is_good = put(data, listing, result, chosen.may_call) if chosen.put else (say_passed(listing, result), True)
    return command.write_output(said.encode()) or int(not is_good)


def main(arguments=None):
    parser = argparse.ArgumentParser(description=__doc__, formatter_class=argparse.RawDescriptionHelpFormatter)
    parser.add_argument("library", metavar="ARCHIVE", help="a static library, or an object file")
    parser.add_argument("--put", action="store_true", help="try the check: put instructions into copies that it must refuse")
    parser.add_argument("--may-call", metavar="PATTERN", type=pattern, default="", help="names outside the library that may be called")
    chosen = parser.parse_args(arguments)
    try:
        return run(chosen)
    except OSError as wrong:
        command.complain(command.say_failure(wrong))
    except CannotCheck as wrong:
        command.complain(f"{chosen.library}: {wrong}")
    return 2


if __name__ == "__main__":
    command.run(main)
