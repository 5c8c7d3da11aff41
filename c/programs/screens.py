"""What a terminal of tmux shows: characters, with what their renditions show. Part of `compare` and `try`."""
import os
import re
import subprocess

SOCKET = "programs.%d" % os.getpid()


def tmux(*words):
    command = ["tmux", "-L", SOCKET, "-f", "/dev/null", *words]
    return subprocess.run(command, check=True, capture_output=True, text=True).stdout


# What each parameter of SGR says of which part of a rendition.
PARTS = {**{str(n): n for n in range(1, 10)}, "22": 1, "39": "front", "49": "back"}
PARTS.update({str(30 + n): "front" for n in range(8)})
PARTS.update({str(40 + n): "back" for n in range(8)})


def seen(character, pen):
    """What a pen shows on a character."""
    shown = pen
    if character == " ":
        parts = (4, 7, "back", "front") if 7 in pen else (4, "back", "front") if 4 in pen else ("back",)
        shown = {part: pen[part] for part in parts if part in pen}
    return tuple(sorted((str(part), code) for part, code in shown.items()))


def looks(captured):
    """The rows of a captured screen, each a list of characters and their renditions. Of a blank only what is seen
    counts, and plain blanks at a row's end are left out: a place that was never written looks the same."""
    rows, pen = [], {}
    for line in captured.splitlines():
        row = []
        for codes, character in re.findall(r"\x1b\[([0-9;]*)m|(.)", line):
            if character:
                row.append((character, seen(character, pen)))
                continue
            for code in codes.split(";"):
                if code in ("", "0"):
                    pen = {}
                elif code in ("39", "49"):
                    pen.pop(PARTS[code], None)
                else:
                    pen[PARTS.get(code, code)] = code
        while row and row[-1] == (" ", ()):
            row.pop()
        rows.append(row)
    return rows


def printed_row(row):
    """A row for a reader: its text, and where each rendition other than the plain one begins and ends."""
    parts, last = [], None
    for place, (_, pen) in enumerate([*row, (" ", None)]):
        if pen == last:
            continue
        if last:
            parts.append("%d-%d:%s" % (begun, place - 1, ",".join(code for _, code in last)))
        begun, last = place, pen
    return " ".join(["|" + "".join(character for character, _ in row) + "|", *parts])


def printed(rows):
    """A screen's rows for a reader."""
    return "\n".join(printed_row(row) for row in rows)
