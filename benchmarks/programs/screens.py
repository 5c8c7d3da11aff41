"""What a terminal shows that is sent bytes by the entries of xterm, tmux, screen, the Linux console, vt220 and rxvt:
ECMA-48, private functions of these, and UTF-8 with characters of one column. One that is not known, or that terminals
take in different ways where it comes, is an error."""
import re

TOKEN = re.compile(rb"\x1b\[([?>!]?)([0-9;]*)([@-~])|\x1b([()].|[78=>DEM])|([\x00-\x1f])|([ -~\x80-\xff]+)")
# The lines of the VT100's graphic set, from ` on.
LINES = "\u25c6\u2592\u2409\u240c\u240d\u240a\u00b0\u00b1\u2424\u240b\u2518\u2510\u250c\u2514\u253c\u23ba\u23bb\u2500\u23bc\u23bd\u251c\u2524\u2534\u252c\u2502\u2264\u2265\u03c0\u2260\u00a3\u00b7"
PARTS = {22: {1, 2}, 24: {4}, 25: {5}, 27: {7}, 28: {8}}


class Terminal:
    def __init__(self, rows, columns, erases_in_color):
        self.rows, self.columns, self.erases_in_color = rows, columns, erases_in_color
        self.row = self.column = 0
        self.is_at_margin, self.inserts, self.draws_lines = False, False, False
        self.top, self.bottom = 0, rows - 1
        self.attributes, self.front, self.back = frozenset(), 9, 9
        self.last, self.cache, self.saved = " ", {}, None
        self.cells = [[self.blank()] * columns for _ in range(rows)]

    def seen(self, character, attributes, front, back):
        """A place: of a blank only what is seen of it."""
        key = (character, attributes, front, back)
        if key not in self.cache:
            if character == " ":
                attributes = attributes & {4, 7}
                front = front if attributes else 9
            self.cache[key] = (character, tuple(sorted(attributes)), front, back)
            self.cache[key] = self.cache.setdefault(self.cache[key], self.cache[key])
        return self.cache[key]

    def blank(self):
        return self.seen(" ", frozenset(), 9, self.back if self.erases_in_color else 9)

    def shown(self):
        """All places, and where the cursor is."""
        return self.cells, (self.row, self.column)

    def go(self, row, column):
        self.row = min(max(row, 0), self.rows - 1)
        self.column = min(max(column, 0), self.columns - 1)
        self.is_at_margin = False

    def move_rows(self, top, bottom, count):
        """Moves the rows from top to bottom up by a count, down where it is negative."""
        height = bottom + 1 - top
        count = max(-height, min(count, height))
        new = [[self.blank()] * self.columns for _ in range(abs(count))]
        block = self.cells[top:bottom + 1]
        self.cells[top:bottom + 1] = block[count:] + new if count >= 0 else new + block[:height + count]

    def line_feed(self):
        if self.row == self.bottom:
            self.move_rows(self.top, self.bottom, 1)
        elif self.row < self.rows - 1:
            self.row += 1

    def reverse_line_feed(self):
        if self.row == self.top:
            self.move_rows(self.top, self.bottom, -1)
        elif self.row > 0:
            self.row -= 1

    def write(self, text):
        for character in text:
            if self.is_at_margin:
                self.column, self.is_at_margin = 0, False
                self.line_feed()
            line = self.cells[self.row]
            cell = self.seen(character, self.attributes, self.front, self.back)
            if self.inserts:
                line.insert(self.column, cell)
                line.pop()
            else:
                line[self.column] = cell
            if self.column == self.columns - 1:
                self.is_at_margin = True
            else:
                self.column += 1
        self.last = text[-1]

    def control(self, byte):
        if byte == 13:
            self.column, self.is_at_margin = 0, False
        elif byte in (0, 7, 14, 15):
            pass
        else:
            self.wants(not self.is_at_margin, "%r" % byte)
            if byte == 8:
                self.column = max(self.column - 1, 0)
            elif byte == 9:
                self.column = min(self.column // 8 * 8 + 8, self.columns - 1)
            elif byte == 10:
                self.line_feed()
            else:
                self.wants(False, "%r" % byte)

    @staticmethod
    def wants(condition, name):
        if not condition:
            raise ValueError("control function: %s" % name)

    def escape(self, name):
        if name[:1] in "()" or name in "=>":
            self.draws_lines = name == "(0" if name[:1] == "(" else self.draws_lines
            return
        if name == "7":
            self.saved = self.row, self.column, self.attributes, self.front, self.back
            return
        if name == "8":
            row, column, self.attributes, self.front, self.back = self.saved
            self.go(row, column)
            return
        self.wants(name in "DEM" and not self.is_at_margin, name)
        if name == "M":
            self.reverse_line_feed()
        else:
            self.column = 0 if name == "E" else self.column
            self.line_feed()

    def rendition(self, numbers):
        for number in numbers:
            if number == 0:
                self.attributes, self.front, self.back = frozenset(), 9, 9
            elif number < 10:
                self.attributes |= {number}
            elif number in PARTS:
                self.attributes -= PARTS[number]
            elif 30 <= number <= 39 and number != 38:
                self.front = number - 30
            elif 40 <= number <= 49 and number != 48:
                self.back = number - 40
            else:
                self.wants(number == 10, "SGR %d" % number)

    def erase(self, row, first, end):
        self.cells[row][first:end] = [self.blank()] * (end - first)

    def erase_page(self, kind):
        if kind == 0:
            self.erase(self.row, self.column, self.columns)
        for row in range(self.row + 1 if kind == 0 else 0, self.rows):
            self.erase(row, 0, self.columns)

    def erase_line(self, kind):
        first = 0 if kind else self.column
        self.erase(self.row, first, self.columns if kind != 1 else self.column + 1)

    def insert_places(self, count):
        count = min(count, self.columns - self.column)
        line = self.cells[self.row]
        line[self.column:] = ([self.blank()] * count + line[self.column:])[:self.columns - self.column]

    def delete_places(self, count):
        count = min(count, self.columns - self.column)
        line = self.cells[self.row]
        line[self.column:] = line[self.column + count:] + [self.blank()] * count

    def sequence(self, mark, numbers, final):
        first = numbers[0] if numbers else 0
        count = max(first, 1)
        if mark:
            self.wants(final in "hlp", mark + final)
        elif final == "m":
            self.rendition(numbers or [0])
        elif final == "H":
            self.go(count - 1, max(numbers[1], 1) - 1 if len(numbers) > 1 else 0)
        elif final == "G":
            self.go(self.row, count - 1)
        elif final == "d":
            self.go(count - 1, self.column)
        elif final == "r":
            self.top, self.bottom = count - 1, (numbers[1] if len(numbers) > 1 else self.rows) - 1
            self.go(0, 0)
        elif final in "hl":
            self.wants(first in (4, 34), "%d%s" % (first, final))
            self.inserts = final == "h" if first == 4 else self.inserts
        elif final != "t":
            self.edit(count, first, final)

    def edit(self, count, first, final):
        """What moves the cursor from where it is, or changes places there."""
        self.wants(not self.is_at_margin or final == "J" and first == 2, "%s at the margin" % final)
        if final in "ABCD":
            rows, columns = {"A": (-1, 0), "B": (1, 0), "C": (0, 1), "D": (0, -1)}[final]
            self.go(self.row + rows * count, self.column + columns * count)
        elif final in "LM":
            self.wants(self.column == 0 and self.top <= self.row <= self.bottom, "%s in a column" % final)
            self.move_rows(self.row, self.bottom, count if final == "M" else -count)
        elif final in "ST":
            self.move_rows(self.top, self.bottom, count if final == "S" else -count)
        elif final == "Z":
            self.column = max((self.column - 1) // 8 * 8, 0)
        elif final == "b":
            self.write(self.last * count)
        elif final == "X":
            self.erase(self.row, self.column, min(self.column + count, self.columns))
        elif final in "JK@P":
            {"J": self.erase_page, "K": self.erase_line, "@": self.insert_places,
             "P": self.delete_places}[final](first if final in "JK" else count)
        else:
            self.wants(False, final)

    def drawn(self, text):
        """What is written for characters: lines in place of those from ` to ~ if lines are drawn."""
        if not self.draws_lines:
            return text
        return "".join(LINES[ord(each) - 96] if "`" <= each <= "~" else each for each in text)

    def take(self, given):
        """Takes bytes of an update: control functions are whole."""
        place = 0
        while place < len(given):
            found = TOKEN.match(given, place)
            if not found:
                raise ValueError("no control function: %r" % given[place:place + 12])
            mark, numbers, final, escape, control, text = found.groups()
            if text:
                self.write(self.drawn(text.decode()))
            elif control:
                self.control(control[0])
            elif escape:
                self.escape(escape.decode())
            else:
                self.sequence(mark.decode(), [int(n or 0) for n in numbers.decode().split(";")] if numbers else [],
                              final.decode())
            place = found.end()
