#!/usr/bin/env python3
# Needs Python 3.8 or newer, and a disassembler for Thumb: objdump, GNU's or LLVM's.
"""Tells how deep the stack can get below each entry of an image for Thumb: what the functions of the deepest chain of calls take.

A function takes all that its instructions take off the stack pointer, whichever of them are run. Ends with 2 where nothing can be
told: a function sets the stack pointer to what is not known, leads to what is known only when it runs, or comes back to itself."""

import command  # first: it says so where Python is too old

import argparse
import pathlib
import re
from dataclasses import dataclass, field

import instructions

ENTRIES = "ravelsickle_"  # how the name of an entry begins
THUMB = instructions.THUMB

IF = instructions.WHEN + instructions.WIDE

# instructions that take room: for a list of registers, and for a number of bytes
LIST = re.compile(rf"(?:v?push{IF}|v?stmdb{IF} sp!,) \{{(.*)\}}")
NUMBER = re.compile(rf"subw?{IF} sp, (?:sp, )?#(\d+)|strd?{IF} .*\[sp, #-(\d+)\]!")
# those that give room back, and those that set the stack pointer in any way
GIVES = re.compile(rf"v?pop{IF} .*|v?ldm(?:ia)?{IF} sp!, .*|addw?{IF} sp, (?:sp, )?#\d+|ldrd?{IF} .*\[sp\], #\d+")
SETS = re.compile(r"(?!v?(?:ld|st)m|cm[np]|tst)\S+ sp\b.*|.*\bsp!.*|.*\[sp.*\]!|.*\[sp\], .*")
TABLE = re.compile("tb[bh]")  # the first word of a jump by a table
NOP = b"\x00\xbf"  # may fill a gap behind one
DATA = re.compile(r"(?:[0-9a-f]{2} )*\.(word|short|byte) 0x([0-9a-f]+)")


def bytes_of(registers):
    """The bytes of a list of registers, such as r4, r5, lr or d8-d9."""
    total = 0
    for part in registers.split(", "):
        first, _, last = part.partition("-")
        total += (8 if first[0] == "d" else 4) * (int(last[1:]) - int(first[1:]) + 1 if last else 1)
    return total


def taken(instruction):
    """The bytes that an instruction takes off the stack pointer."""
    text = instruction.text
    if LIST.fullmatch(text):
        return bytes_of(LIST.fullmatch(text)[1])
    if NUMBER.fullmatch(text):
        return int(max(NUMBER.fullmatch(text).groups("0"), key=int))
    if SETS.fullmatch(text) and not GIVES.fullmatch(text):
        raise instructions.CannotCheck(f"{instruction}: sets the stack pointer to what is not known")
    return 0


@dataclass
class Function:
    """What a function takes off the stack pointer, and the functions that it calls, jumps to or runs on into."""

    takes: int = 0
    below: set = field(default_factory=set)


def table_of(listing, instruction):
    """The places that a jump by a table leads to: the table stands behind it, and holds how many half-words on each is."""
    (section, address), data, place = instruction.place, b"", instruction.next
    while DATA.fullmatch(listing.instructions[place].text):
        kind, number = DATA.fullmatch(listing.instructions[place].text).groups()
        data += int(number, 16).to_bytes({"word": 4, "short": 2, "byte": 1}[kind], "little")
        place = listing.instructions[place].next
    if data.endswith(NOP):
        data = data[: -len(NOP)]
    size = 1 if instruction.word == "tbb" else 2
    steps = {int.from_bytes(data[at : at + size], "little") for at in range(0, len(data), size)}
    return [(section, address + 4 + 2 * step) for step in sorted(steps - {0})]  # 0 fills the table up


def leads_of(listing, instruction):
    """The places that an instruction leads to."""
    if TABLE.fullmatch(instruction.word):
        leads, why = table_of(listing, instruction), None
    else:
        leads, why = instructions.follow(listing, instruction, "", instructions.Result())
    if any(lead not in listing.instructions for lead in leads):
        why = instructions.NOT_CODE
    if why in (instructions.NOT_KNOWN, instructions.NOT_CODE):
        raise instructions.CannotCheck(f"{instruction}: {why}")
    return leads


def functions_of(listing, entries):
    """Every function that is reached from the entries, by its name."""
    functions, reached = {}, set()
    waiting = [place for name in entries for place in listing.places_of(name)]
    while waiting:
        place = waiting.pop()
        if place in reached:
            continue
        reached.add(place)
        instruction = listing.instructions[place]
        function = functions.setdefault(instruction.function, Function())
        function.takes += taken(instruction)
        leads = leads_of(listing, instruction)
        function.below |= {listing.instructions[lead].function for lead in leads} - {instruction.function}
        waiting += leads
    return functions


def depth(functions, name, chain=()):
    """What the deepest chain of calls takes that begins with a function."""
    if name in chain:
        raise instructions.CannotCheck(f"{name} comes back to itself")
    function = functions[name]
    return function.takes + max((depth(functions, other, chain + (name,)) for other in function.below), default=0)


def tell(listing):
    """A line for each entry."""
    entries = sorted(name for name in listing.names if name.startswith(ENTRIES))
    if not entries:
        raise instructions.CannotCheck("there is no entry")
    functions = functions_of(listing, entries)
    return "".join(f"{name[len(ENTRIES):]} {depth(functions, name)}\n" for name in entries)


def main(arguments=None):
    parser = argparse.ArgumentParser(description=__doc__, formatter_class=argparse.RawDescriptionHelpFormatter)
    parser.add_argument("image", metavar="IMAGE", help="a linked program for Thumb")
    chosen = parser.parse_args(arguments)
    try:
        processor = instructions.processor_of(pathlib.Path(chosen.image).read_bytes())
        if processor is not THUMB:
            raise instructions.CannotCheck(f"for {processor.name}, and not for Thumb")
        said = tell(instructions.Listing(instructions.disassemble(chosen.image, THUMB), THUMB))
        return command.write_output(said.encode())
    except OSError as wrong:
        command.complain(command.say_failure(wrong))
    except instructions.CannotCheck as wrong:
        command.complain(f"{chosen.image}: {wrong}")
    return 2


if __name__ == "__main__":
    command.run(main)
