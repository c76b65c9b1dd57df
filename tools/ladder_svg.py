#!/usr/bin/env python3
"""Draws the ladder that `uucpair play --ladder` prints as a picture, an SVG file.

    uucpair play --ladder SCRIPT | tools/ladder_svg.py >ladder.svg

Reads the ladder from standard input, passes over the report in front of it, and prints the picture. An arrow ends in the row of
the event at which it arrives, or in a cross at which it is lost. Ends with status 1 where there is no ladder.
"""
import re
import sys

CALLER, CALLED, STEP, WIDTH, CROSS = 360, 740, 18, 1100, 0.6
EVENT = r"(?P<event>start|\d+)"
TO_CALLED = re.compile(rf" *{EVENT}  (?P<words>\S.*?) -+(?P<tip>> \d+|x \d+|\.\.\.)$")
TO_CALLER = re.compile(rf" *{EVENT}  +(?P<tip>\d+ <|\d+ x|\.\.\.)-+ (?P<words>\S.*)$")
NOTE = re.compile(rf" *{EVENT}  (?P<gap> {{53}})?(?P<words>\S.*)$")


def number(text):
    return 0 if text == "start" else int(text)


def rows_of(lines):
    """Yields for each line of the ladder what it is: a head, an arrow or a note, by its side."""
    inside = False
    for line in lines:
        if line.startswith("session ") and len(line.split()) == 2:
            head = line
        elif line.startswith("event  caller"):
            inside = True
            yield "head", None, head, 0, ""
        elif inside:
            for kind, form in (("called", TO_CALLED), ("caller", TO_CALLER), ("note", NOTE)):
                found = form.match(line)
                if found:
                    side = bool(found["gap"]) if kind == "note" else kind == "caller"
                    yield kind, side, found["words"], number(found["event"]), found.groupdict().get("tip", "")
                    break


def row_of_event(rows, event, behind):
    """Returns the first row behind this one of that event, or of a later one."""
    return next((at for at in range(behind + 1, len(rows)) if rows[at][0] != "head" and rows[at][3] >= event), len(rows))


def picture(rows):
    """Yields the lines of the picture."""
    height = (len(rows) + 2) * STEP
    yield f'<svg xmlns="http://www.w3.org/2000/svg" width="{WIDTH}" height="{height}" font-family="monospace" font-size="12">'
    yield '<defs><marker id="tip" markerWidth="8" markerHeight="8" refX="7" refY="4" orient="auto"><path d="M0 0L8 4L0 8z"/></marker></defs>'
    for x in (CALLER, CALLED):
        yield f'<path d="M{x} 0V{height}" stroke="silver"/>'
    for at, (kind, is_called, words, event, tip) in enumerate(rows):
        y = (at + 1) * STEP
        if kind == "head":
            yield f'<text x="{(CALLER + CALLED) // 2}" y="{y}" text-anchor="middle" font-weight="bold">{words}</text>'
            continue
        x, anchor = (CALLED + 8, "start") if is_called else (CALLER - 8, "end")
        yield f'<text x="4" y="{y}">{event or "start"}</text><text x="{x}" y="{y}" text-anchor="{anchor}">{words}</text>'
        if kind == "note":
            continue
        start, goal = (CALLED, CALLER) if is_called else (CALLER, CALLED)
        there = re.search(r"\d+", tip)
        end_y = (row_of_event(rows, int(there.group()), at) + 1 if there else at + 2) * STEP - 4
        end_x = goal if "<" in tip or ">" in tip else round(start + (goal - start) * CROSS)
        mark = ' marker-end="url(#tip)"' if end_x == goal else ""
        yield f'<path d="M{start} {y - 4}L{end_x} {end_y}" stroke="black"{mark}/>'
        if "x" in tip:
            yield f'<text x="{end_x}" y="{end_y + 4}" text-anchor="middle">x</text>'
    yield "</svg>"


def main():
    rows = list(rows_of(sys.stdin.read().splitlines()))
    if not rows:
        sys.exit("ladder_svg.py: no ladder on standard input")
    print("\n".join(picture(rows)))


main()
