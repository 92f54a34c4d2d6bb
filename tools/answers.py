"""The lines that rowrun prints: what each says, as values and in words. Needs Python 3.8."""

import re
from dataclasses import dataclass

import records

# What each refusal means.
REFUSALS = {
    1: "the floats that were lent do not come out even",
    2: "the record has more than 2,048 rows",
    3: "the answer takes more readings than the allowance",
    5: "the determinant is not finite or within its error bound",
    6: "recovery found no point",
    7: "the prefix is longer than the rows",
    8: "the end of the input cuts the record",
    9: "the kind of the record is not 1",
    10: "the body of the record has a wrong size, or a normalise byte above 1",
}

HEX, INDEX, COUNT = "([0-9A-Fa-f]{16})", "([0-9]+|-)", "([0-9]+)"
FORMS = {
    "point": re.compile(f"point {HEX} {HEX} {INDEX} {INDEX} {COUNT}"),
    "level": re.compile(f"level ()?{HEX} {INDEX} {INDEX} {COUNT}"),
    "across": re.compile(f"across {HEX} ()?{INDEX} {INDEX} {COUNT}"),
    "nothing": re.compile(f"nothing ()?()?{INDEX} {INDEX} {COUNT}"),
}
REFUSED = re.compile(f"refused {COUNT}")
END = re.compile(f"end {COUNT}")


@dataclass
class Answer:
    """What rowrun answered. x and y are None where the answer has none, first and second for no row."""

    kind: str
    x: float = None
    y: float = None
    first: int = None
    second: int = None
    count: int = None
    refusal: int = None

    def active(self):
        return [number for number in (self.first, self.second) if number is not None]


def read_line(line):
    """The number of the record and the answer that one line of rowrun has."""
    number, _, rest = line.partition(" ")
    if re.fullmatch(COUNT, number):
        match = REFUSED.fullmatch(rest)
        if match:
            return int(number), Answer("refused", refusal=int(match[1]))
        for kind, form in FORMS.items():
            match = form.fullmatch(rest)
            if match:
                return int(number), read_match(kind, match)
    raise ValueError(f"not a line of rowrun: '{line[:60]}'")


def read_match(kind, match):
    """The answer in a line that has the form of its kind."""
    x, y = (records.float_of(int(digits, 16)) if digits else None for digits in match.groups()[:2])
    if x != x or y != y:
        raise ValueError("a coordinate is NaN")
    first, second = (None if word == "-" else int(word) for word in match.groups()[2:4])
    return Answer(kind, x, y, first, second, int(match[5]))


def split_lines(data):
    """The lines of what rowrun printed, as text; bytes that it never prints are shown by their numbers."""
    return data.decode("ascii", "backslashreplace").split("\n")


def find_answer(data, name, number):
    """The answer to record `number` among the lines of rowrun."""
    for place, line in enumerate(split_lines(data), 1):
        if line.split()[:1] == [str(number)]:
            try:
                return read_line(line.strip())[1]
            except ValueError as wrong:
                raise records.TextError(name, place, wrong) from None
    raise ValueError(f"{name}: no line for record {number}")


def read_all(data, count):
    """The answers to so many records, as pairs of a line and what it says. Nothing may be missing, least of all the end."""
    *lines, cut = split_lines(data)
    end = lines.pop() if lines else ""
    if cut or not END.fullmatch(end):
        raise ValueError(f"the line 'end' is missing, the last one is '{(cut or end)[:60]}'")
    if end != f"end {count}" or len(lines) != count:
        raise ValueError(f"{len(lines)} lines and then '{end}', where the records are {count}")
    answers = []
    for wanted, line in enumerate(lines, 1):
        number, answer = read_line(line)
        if number != wanted:
            raise ValueError(f"line {wanted} is about record {number}")
        answers.append((line, answer))
    return answers


# Words


def exact(number):
    """A number in the fewest digits that tell it from every other float."""
    if number in (float("inf"), float("-inf")):
        return "infinity" if number > 0 else "-infinity"
    return re.sub(r"\.0$", "", re.sub(r"e\+?(-?)0*", r"e\1", repr(number)))


def say_place(answer, say_number):
    """The answer without rows and count."""
    if answer.kind == "point":
        return f"point x = {say_number(answer.x)}, y = {say_number(answer.y)}"
    if answer.kind == "level":
        return f"level y = {say_number(answer.y)}, x is open"
    if answer.kind == "across":
        return f"across x = {say_number(answer.x)}, y is open"
    return "nothing, neither x nor y"


def say_active(answer):
    """The active rows."""
    if answer.first is not None and answer.second is not None:
        return f"active rows {answer.first} and {answer.second}"
    if answer.first is not None:
        return f"first active row {answer.first}, no second"
    if answer.second is not None:
        return f"no first active row, second {answer.second}"
    return "no active rows"


def say_answer(answer, say_number=exact):
    """The whole answer."""
    if answer.kind == "refused":
        return f"refused {answer.refusal}: {REFUSALS.get(answer.refusal, 'no meaning is known for this number')}"
    readings = "1 reading" if answer.count == 1 else f"{answer.count} readings"
    return f"{say_place(answer, say_number)}; {say_active(answer)}; {readings}"
