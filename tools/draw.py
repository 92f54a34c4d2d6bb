#!/usr/bin/env python3
# Needs Python 3.8 or newer, and nothing else.
"""Draws one problem and the answer that rowrun gave to it as an SVG picture."""

import command  # first: it says so where Python is too old

import argparse
import math
import re
import textwrap
from xml.sax.saxutils import escape

import answers
import plane
import records

WIDTH = 640  # the height is what the caption needs
LEFT, TOP, PLOT_WIDTH, PLOT_HEIGHT = 78, 54, 542, 310  # where the plane is shown
BOX = (LEFT, TOP, LEFT + PLOT_WIDTH, TOP + PLOT_HEIGHT)
TITLE_TOP, CAPTION_TOP, CAPTION_LEFT, CAPTION_STEP = 26, 52, 20, 19
SWATCH = 26  # what the sample of a colour takes at the start of a line of the caption
LINE_LETTERS, BOLD_LETTERS = 78, 72  # letters that fit a line of the caption
LETTER_WIDTH, LETTER_HEIGHT = 6.9, 15  # of the labels in the plot

# Colours that stay apart for every kind of colour blindness (Okabe and Ito's).
FIRST, SECOND, FEASIBLE, FEASIBLE_SHADE = "#D55E00", "#0072B2", "#009E73", 0.32
PLAIN, AXIS, SHADE, INK, GRID = "#5F6B76", "#AAB4BD", "#8A97A3", "#1B1F23", "#E3E7EA"
PAPER, EDGE = "#FFFFFF", "#D0D7DE"  # the picture brings its own background, so that it is read on a dark page too


def looks_like_records(data):
    """Records hold bytes that no text holds: the high bytes of a length, for one, are zeros."""
    return any(byte < 32 and byte not in b"\t\n\r\f\v" for byte in data)


def find_record(data, name, number, form):
    """Record `number` of a stream or of its text."""
    if form == "records" or (form is None and looks_like_records(data)):
        found = records.read_records(data)
    else:
        found = records.parse_text(data, name)
    if not 1 <= number <= len(found):
        raise ValueError(f"{name}: no record {number}, it holds {len(found)}")
    return found[number - 1]


# Words


def short(number):
    """A number in at most nine digits, without the padding of its exponent."""
    text = format(number, ".9g")
    return re.sub(r"e\+?(-?)0*", r"e\1", text) if "e" in text else text


def brief(number):
    """A number in six digits, for the caption and the labels."""
    return short(float(format(number, ".6g")))


def say_term(factor, letter, leading):
    """A factor times a letter, with its sign."""
    if factor == 0:
        return ""
    sign = "-" if factor < 0 else "" if leading else "+"
    size = "" if abs(factor) == 1 else brief(abs(factor)) + " "
    return f"{sign}{size}{letter}" if leading else f" {sign} {size}{letter}"


def say_row(number, row):
    """A row as an inequality."""
    a, b, c = row
    if math.isnan(a) or math.isnan(b):
        return f"row {number}: {brief(a)} x + {brief(b)} y \u2264 {brief(c)}"
    left = say_term(a, "x", True)
    left += say_term(b, "y", not left)
    return f"row {number}: {left or '0'} \u2264 {brief(c)}"


def say_runs(rows):
    """Pairs of a row and a remark, in order, as words with the number of rows they name; neighbours are joined."""
    runs = []
    for number, remark in rows:
        if runs and runs[-1][1] == number - 1 and runs[-1][2] == remark:
            runs[-1][1] = number
        else:
            runs.append([number, number, remark])
    for first, last, remark in runs:
        name = f"row {first}" if first == last else f"rows {first} to {last}"
        yield f"{name} ({remark})" if remark else name, last - first + 1


def say_list(opening, rows):
    """An opening with as many of the rows as fit a line, and how many more there are."""
    text = opening
    rest = len(rows)
    for words, count in say_runs(rows):
        joined = text + (", " if text != opening else "") + words
        ending = f", and {rest - count} more" if rest > count else ""
        if len(joined) + len(ending) > LINE_LETTERS:
            break
        text, rest = joined, rest - count
    return f"{text}, and {rest} more" if rest else text


# The picture


class Picture:
    """The parts of one picture, collected in the order in which they are painted; the view is shown in a box of it."""

    def __init__(self, view, box=BOX):
        self.view = view
        self.box = box
        self.parts = []
        self.taken = []  # boxes of the labels and marks in the plot
        self.lines = []  # segments that labels should keep off

    def pixel(self, share):
        """Where a point of the view, in shares of its size, stands in the picture."""
        left, top, right, bottom = self.box
        return left + share[0] * (right - left), top + (1 - share[1]) * (bottom - top)

    def polygon(self, shares, attributes):
        corners = " ".join("%.2f,%.2f" % self.pixel(share) for share in shares)
        self.parts.append(f'<polygon points="{corners}" {attributes}/>')

    def line(self, start, end, attributes):
        self.parts.append('<line x1="%.2f" y1="%.2f" x2="%.2f" y2="%.2f" %s/>' % (*start, *end, attributes))

    def text(self, x, y, words, attributes=""):
        self.parts.append(f'<text x="{x:.2f}" y="{y:.2f}" {attributes}>{escape(words)}</text>')

    def label(self, words, spots, colour, own=None, bold=False):
        """Writes words centred on the spot that collides least, the earlier the better; own is the line named."""
        width = LETTER_WIDTH * len(words) + 4

        def box_at(spot):
            return (spot[0] - width / 2, spot[1] - LETTER_HEIGHT / 2, spot[0] + width / 2, spot[1] + LETTER_HEIGHT / 2)

        best = min(range(len(spots)), key=lambda place: (self.collisions(box_at(spots[place]), own), place))
        x, y = spots[best]
        self.taken.append(box_at(spots[best]))
        look = f'text-anchor="middle" font-size="13" fill="{colour}"' + (' font-weight="bold"' if bold else "")
        for paint in (f' stroke="{PAPER}" stroke-width="4" stroke-linejoin="round"', ""):  # a halo, then the letters
            self.text(x, y + 4.5, words, look + paint)

    def collisions(self, box, own):
        """How badly a label would stand here: outside the plot is worst, then on others, then on lines."""
        left, low, right, high = box
        plot = self.box
        outside = left < plot[0] + 2 or low < plot[1] + 2 or right > plot[2] - 2 or high > plot[3] - 2
        covered = sum(left < o[2] + 4 and o[0] - 4 < right and low < o[3] and o[1] < high for o in self.taken)
        wider = (left - 5, low - 4, right + 5, high + 4)
        crossed = sum(plane.segment_in_box(*line, wider) is not None for line in self.lines if line != own)
        crossed += own is not None and plane.segment_in_box(*own, box) is not None
        return 1000 * outside + 30 * covered + crossed


def draw_grid(picture):
    """The frame with ticks at round numbers, and the axes where they are in view."""
    view = picture.view
    left, top, right, bottom = BOX
    words = f'stroke="none" fill="{INK}"'
    picture.parts.append(f'<g id="axes" stroke="{GRID}" font-size="12">')
    for value in ticks_with_room(view):
        x = picture.pixel(view.shares(value, view.bottom))[0]
        picture.line((x, top), (x, bottom), f'stroke="{AXIS}"' if value == 0 else "")
        picture.text(x, bottom + 17, short(value), f'class="x-tick" text-anchor="middle" {words}')
    for value in plane.ticks(view.bottom, view.top, 6):
        y = picture.pixel(view.shares(view.left, value))[1]
        picture.line((left, y), (right, y), f'stroke="{AXIS}"' if value == 0 else "")
        picture.text(left - 6, y + 4, short(value), f'class="y-tick" text-anchor="end" {words}')
    picture.parts.append("</g>")
    picture.text(right, bottom + 33, "x", 'text-anchor="end" font-size="14" font-style="italic"')
    picture.text(left - 6, top - 11, "y", 'text-anchor="end" font-size="14" font-style="italic"')


def ticks_with_room(view):
    """Ticks of the x axis, fewer when their numbers are long."""
    values = plane.ticks(view.left, view.right, 7)
    room = PLOT_WIDTH / max(1, len(values))
    if any(LETTER_WIDTH * (len(short(value)) + 2) > room for value in values):
        values = plane.ticks(view.left, view.right, 4)
    return values


def draw_shading(picture, cuts):
    """The excluded sides, lightly, and what all rows leave. Many rows are shaded together, lest all turn dark."""
    left_over = plane.clip_all(plane.UNIT_SQUARE, [cut for _, cut in cuts])
    few = len(cuts) <= plane.FEW_ROWS
    picture.parts.append(f'<g id="excluded" fill="{SHADE}" fill-opacity="{0.1 if few else 0.3}">')
    if few:
        sides = [plane.clip(plane.UNIT_SQUARE, (-a, -b, -r), 0.0) for _, (a, b, r) in cuts]
    else:
        sides = [plane.UNIT_SQUARE]
    for side in filter(None, sides):
        picture.polygon(side, "")
    picture.parts.append("</g>")
    if left_over:
        if not few:
            picture.polygon(left_over, f'fill="{PAPER}"')
        colours = f'fill="{FEASIBLE}" fill-opacity="{FEASIBLE_SHADE}" stroke="{FEASIBLE}" stroke-width="1.5"'
        picture.polygon(left_over, f'id="feasible" {colours} stroke-linejoin="round"')
    return bool(left_over)


def colour_of(number, answer):
    """The colour of an active row."""
    return FIRST if number == answer.first else SECOND


def draw_boundaries(picture, cuts, answer):
    """The boundary of each row, the active ones heavier and on top. Gives those in view and in colour."""
    few = len(cuts) <= plane.FEW_ROWS
    faint = max(0.1, min(0.6, 40 / max(1, len(cuts))))  # so that thousands of lines do not make one blot
    thin = 'stroke-width="1.2"' if few else f'stroke-width="0.6" stroke-opacity="{faint:.2f}"'
    shown = {}
    for number, cut in sorted(cuts, key=lambda entry: entry[0] in answer.active()):
        segment = plane.boundary(cut)
        if segment is None:
            continue
        start, end = map(picture.pixel, segment)
        colour, look = PLAIN, f'class="row" {thin}'
        if number in answer.active():
            colour = colour_of(number, answer)
            look = 'class="row active" stroke-width="3.5"'
        picture.line(start, end, f'id="row-{number}" {look} stroke="{colour}"')
        if few or number in answer.active():
            shown[number] = (start, end, colour, cut)
            picture.lines.append((start, end))
        else:
            shown[number] = None
    return shown


def name_boundaries(picture, shown):
    """Names the rows in view that are to be named, the active ones first so that they get the best spots."""
    named = [(number, entry) for number, entry in shown.items() if entry]
    for number, (start, end, colour, (a, b, _)) in reversed(named):
        across, up = end[0] - start[0], end[1] - start[1]
        length = math.hypot(across, up) or 1.0
        # The unit normal in pixels, pointing to the excluded side (the picture's y runs down).
        normal = (-up / length, across / length)
        if normal[0] * a * PLOT_HEIGHT - normal[1] * b * PLOT_WIDTH < 0:
            normal = (-normal[0], -normal[1])
        words = f"row {number}"
        off = 5 + LETTER_HEIGHT / 2 * abs(normal[1]) + LETTER_WIDTH * len(words) / 2 * abs(normal[0])
        spots = []
        for side in (1, -1):
            for share in (0.9, 0.1, 0.8, 0.2, 0.7, 0.3, 0.6, 0.4, 0.5, 0.95, 0.05):
                x, y = start[0] + share * across, start[1] + share * up
                spots.append((x + side * off * normal[0], y + side * off * normal[1]))
        active = colour != PLAIN
        picture.label(words, spots, colour if active else INK, (start, end), active)


def draw_answer(picture, answer):
    """Marks the answer: a point, a line, or an arrow at the edge of the picture for one too far off."""
    if answer.x is None and answer.y is None:
        return
    view = picture.view
    x = (view.left + view.right) / 2 if answer.x is None else answer.x
    y = (view.bottom + view.top) / 2 if answer.y is None else answer.y
    # On which side of the view each coordinate lies: 0 for inside.
    beyond_x = (x > view.right) - (x < view.left)
    beyond_y = (y > view.top) - (y < view.bottom)
    inside = min(max(x, view.left), view.right), min(max(y, view.bottom), view.top)
    at = picture.pixel(view.shares(*inside))
    if beyond_x or beyond_y:
        draw_arrow(picture, at, (beyond_x, -beyond_y), say_far(answer))
    elif answer.kind == "point":
        look = f'fill="{INK}" stroke="{PAPER}" stroke-width="2.5"'
        picture.parts.append(f'<circle id="answer" cx="{at[0]:.2f}" cy="{at[1]:.2f}" r="7" {look}/>')
        picture.taken.append((at[0] - 9, at[1] - 9, at[0] + 9, at[1] + 9))
        label_beside(picture, at, say_far(answer))
    else:
        draw_answer_line(picture, at, answer)


def say_far(answer):
    """The answer as a label in the plot."""
    if answer.kind == "point":
        return f"({brief(answer.x)}, {brief(answer.y)})"
    return f"y = {brief(answer.y)}" if answer.kind == "level" else f"x = {brief(answer.x)}"


def label_beside(picture, at, words):
    """Writes words near a mark: above it if that is free, otherwise around it, otherwise farther off."""
    half = LETTER_WIDTH * len(words) / 2 + 2
    spots = []
    for away in (12, 20, 28, 36):
        for turn in (0, 2, -2, 3, -3, 1, -1, 4, -4, 5, -5, 6):
            angle = turn * math.pi / 6
            across, up = math.sin(angle), math.cos(angle)
            spots.append((at[0] + across * (half + away), at[1] - up * (LETTER_HEIGHT / 2 + away)))
    picture.label(words, spots, INK, bold=True)


def draw_arrow(picture, at, way, words):
    """An arrow to the edge of the plot, with the value that lies beyond."""
    length = math.hypot(*way)
    across, down = way[0] / length, way[1] / length
    tip = at[0] - 3 * across, at[1] - 3 * down
    tail = tip[0] - 44 * across, tip[1] - 44 * down
    neck = tip[0] - 13 * across, tip[1] - 13 * down
    picture.parts.append(f'<g id="far-answer" stroke="{INK}" fill="{INK}" stroke-width="2.5">')
    picture.line(tail, neck, "")
    corners = [tip, (neck[0] - 6 * down, neck[1] + 6 * across), (neck[0] + 6 * down, neck[1] - 6 * across)]
    picture.parts.append('<polygon points="%s" stroke="none"/>' % " ".join("%.2f,%.2f" % corner for corner in corners))
    picture.parts.append("</g>")
    picture.lines.append((tail, tip))
    reach = 8
    low, high = [min(pair) - reach for pair in zip(tip, tail)], [max(pair) + reach for pair in zip(tip, tail)]
    picture.taken.append((*low, *high))
    label_beside(picture, tail, words)


def draw_answer_line(picture, at, answer):
    """The line of a level or across answer, broken so that a boundary under it is seen."""
    if answer.kind == "level":
        start, end = (BOX[0], at[1]), (BOX[2], at[1])
    else:
        start, end = (at[0], BOX[1]), (at[0], BOX[3])
    picture.line(start, end, f'id="answer" stroke="{INK}" stroke-width="2.5" stroke-dasharray="9 6"')
    picture.lines.append((start, end))
    label_beside(picture, at, say_far(answer))


def caption(problem, answer, missing, outside, left_over):
    """The lines under the picture, each with the look of what it is about: "bold" for the answer, None for what is not drawn."""
    rows = problem.float_rows()
    lines = [(line, "bold") for line in textwrap.wrap(answers.say_answer(answer, brief), BOLD_LETTERS)]
    for place in dict.fromkeys(answer.active()):
        lines.append((say_row(place, rows[place]), f'stroke="{colour_of(place, answer)}" stroke-width="3.5"'))
    if missing:
        lines.append((say_list("No boundary, not drawn: ", missing), None))
    if outside:
        lines.append((say_list("Boundary outside the picture: ", [(place, "") for place in outside]), None))
    if left_over is not None:
        green = f'stroke="{FEASIBLE}" stroke-width="11" stroke-opacity="{FEASIBLE_SHADE}"'
        lines.append(("the points that meet every row", green) if left_over else ("No point in view meets every row.", None))
    return lines


def draw_caption(picture, title, lines):
    """The title above the plot and the caption under it. The height that the whole picture has."""
    picture.text(CAPTION_LEFT, TITLE_TOP, title, 'font-size="15" font-weight="bold"')
    height = BOX[3] + CAPTION_TOP
    for line, look in lines:
        left, weight = CAPTION_LEFT, 'font-size="13"'
        if look == "bold":
            weight = 'font-size="14" font-weight="bold"'
        elif look is not None:
            picture.line((left, height - 4.5), (left + SWATCH - 8, height - 4.5), look)
            left += SWATCH
        picture.text(left, height, line, f'class="caption" {weight}')
        height += CAPTION_STEP
    return height


def compose(picture, height, title, words, width=WIDTH):
    """The whole document around the parts of a picture."""
    opening = (
        f'<svg xmlns="http://www.w3.org/2000/svg" viewBox="0 0 {width} {height}" width="{width}" height="{height}"'
        f' font-family="Helvetica, Arial, sans-serif" fill="{INK}" role="img">'
    )
    size = f'width="{width - 1}" height="{height - 1}" rx="8"'
    background = f'<rect x="0.5" y="0.5" {size} fill="{PAPER}" stroke="{EDGE}"/>'
    head = ['<?xml version="1.0" encoding="UTF-8"?>', opening, f"<title>{escape(title)}</title>"]
    return "\n".join(head + [f"<desc>{escape(words)}</desc>", background] + picture.parts + ["</svg>"]) + "\n"


def draw(number, record, answer):
    """The picture of a record and its answer."""
    problem = record if isinstance(record, records.Problem) else records.Problem()
    if any(place >= len(problem.rows) for place in answer.active()):
        raise ValueError(f"the answer names a row that record {number} does not have")
    planes, missing = [], []
    for place, row in enumerate(problem.float_rows()):
        found, why = plane.half_plane(place, row, problem.normalise)
        if found:
            planes.append(found)
        else:
            missing.append((place, why))
    view = plane.choose_view(planes, answer.active(), answer.x, answer.y, PLOT_WIDTH / PLOT_HEIGHT)
    picture = Picture(view)
    cuts = [(found.number, view.cut(found)) for found in planes]
    draw_grid(picture)
    left_over = draw_shading(picture, cuts) if problem is record else None
    shown = draw_boundaries(picture, cuts, answer)
    frame = f'x="{LEFT}" y="{TOP}" width="{PLOT_WIDTH}" height="{PLOT_HEIGHT}"'
    picture.parts.append(f'<rect {frame} fill="none" stroke="{PLAIN}"/>')
    draw_answer(picture, answer)
    name_boundaries(picture, shown)
    outside = [found.number for found in planes if found.number not in shown]
    lines = caption(problem, answer, missing, outside, left_over)
    title = say_title(number, record)
    height = draw_caption(picture, title, lines)
    return compose(picture, height, title, answers.say_answer(answer, brief))


def say_title(number, record):
    """What the picture shows, in words."""
    if not isinstance(record, records.Problem):
        return f"Record {number}: not a problem"
    rows = len(record.rows)
    return f"Record {number}: the highest y that meets {rows} row{'' if rows == 1 else 's'}"


# The command


def main(arguments=None):
    parser = argparse.ArgumentParser(description=__doc__)
    parser.add_argument("problem", metavar="PROBLEM", help="text or records, '-' for standard input")
    parser.add_argument("answers", metavar="ANSWERS", help="the lines of rowrun, '-' for standard input")
    parser.add_argument("--record", type=int, default=1, metavar="K", help="the record to draw, from 1 (default 1)")
    parser.add_argument("--as", dest="form", choices=["text", "records"], help="how PROBLEM is read, else by content")
    chosen = parser.parse_args(arguments)
    if chosen.problem == chosen.answers == "-":
        parser.error("only one of PROBLEM and ANSWERS can be standard input")
    try:
        record = find_record(command.read_input(chosen.problem), chosen.problem, chosen.record, chosen.form)
        answer = answers.find_answer(command.read_input(chosen.answers), chosen.answers, chosen.record)
        picture = draw(chosen.record, record, answer)
    except OSError as wrong:
        command.complain(command.say_failure(wrong))
        return 2
    except (ValueError, records.TextError) as wrong:
        command.complain(wrong)
        return 2
    return command.write_output(picture.encode())


if __name__ == "__main__":
    command.run(main)
