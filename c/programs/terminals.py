"""Runs a build of a program on a terminal of tmux, step by step. Part of `try`."""
import glob
import os
import re
import shlex
import shutil
import signal
import subprocess
import time

from screens import looks, tmux

# White on black counts as the terminal's own colours: that is what ncurses makes of these where a program does not call
# use_default_colors(), and here they stay what they are.
OWN_COLOURS = re.compile(r"(?<=[\[;])(37|40)(?=[;m])")
# How long a screen has to stay as it is to count as still, and how long it is waited for.
STILL = 0.12
WAIT = 5.0
# A program that sends more than that and is never still hangs.
MOST_SENT = 20000000


def steps_of(keys):
    """The steps that a line of the table says: pairs of what is done and with what.
      =text       types the text, `_` for blanks       Name    a key as tmux names it
      @100x30     the terminal gets that size          .       ends a pause (with a clock of our own)
      !           sends SIGALRM                        WORD*5  is five steps"""
    for word in keys.split():
        repeated = re.fullmatch(r"(.+)\*(\d+)", word)
        word, times = (repeated[1], int(repeated[2])) if repeated else (word, 1)
        for _ in range(times):
            if word[0] == "=" and len(word) > 1:
                yield "text", word[1:].replace("_", " ")
            elif word[0] == "@" and "x" in word:
                yield "size", word[1:].split("x")
            elif word in (".", "!"):
                yield {".": "release", "!": "alarm"}[word], None
            else:
                yield "key", word


class Side:
    """One build of a program on a terminal of its own, in a folder of its own."""

    def __init__(self, work, entry, name, number, section, build, guard=None):
        self.pane, self.is_clocked = "%s-%d" % (name, number), section.getboolean("clock", False)
        self.has_cursor = section.getboolean("cursor", True)
        self.size = section.get("size", "80x24").split("x")
        self.folder = os.path.join(work, "run", str(number), name)
        shutil.rmtree(self.folder, ignore_errors=True)
        os.makedirs(os.path.join(self.folder, "home"))
        # One name for both, since programs show where they run and what they are called.
        self.own, self.shared = os.path.join(work, "run", str(number)), os.path.join(work, "run", "0")
        self.processor, self.process, self.at = 0, 0, {}
        given = {"TERM": entry, "TERMINFO": os.path.join(work, "terminfo"), "HOME": os.path.join(self.folder, "home"),
                 "LC_ALL": "C", "LANG": "C", "TZ": "UTC", "ESCDELAY": "100", "SHELL": "/bin/sh", "USER": "someone",
                 "SOURCE": build.place, "HERE": os.path.dirname(os.path.abspath(__file__)), "PATH": os.environ["PATH"]}
        if section.get("prepare"):
            subprocess.run(["sh", "-c", section["prepare"]], cwd=self.folder, env=given, check=True)
        if self.is_clocked:
            self.make_fifos()
            given.update(LD_PRELOAD=os.path.join(work, "clock.so"), STEPS_ARRIVED="../%s.arrived" % name,
                         STEPS_RELEASED="../%s.released" % name)
        for each in shlex.split(section.get("environment", "")):
            given.update([each.split("=", 1)])
        # The program is called by its name alone, since the names of its folders differ.
        given["PATH"] = self.file("programs") + ":" + given["PATH"]
        os.makedirs(self.file("programs"), exist_ok=True)
        shutil.copy2(build.binary, self.file("programs"))
        program = os.path.basename(build.binary)
        under, environment = self.guarded(guard)
        given.update(environment)
        self.start(program, section.get("under", "") + under + " " + program, section.get("arguments", ""), given)

    def file(self, kind):
        return self.folder + "." + kind

    def guarded(self, guard):
        """What the program runs under, and its environment, so that findings are written into files."""
        for each in glob.glob(self.file("found") + "*"):
            os.remove(each)
        if guard == "valgrind":
            return " valgrind -q --log-file=%s" % self.file("found"), {}
        if guard == "sanitizers":
            return "", {"ASAN_OPTIONS": "detect_leaks=0:verify_asan_link_order=0:log_path=" + self.file("found"),
                        "UBSAN_OPTIONS": "print_stacktrace=1:log_path=" + self.file("found")}
        return "", {}

    def found(self):
        """What a guard found."""
        texts = []
        for each in sorted(glob.glob(self.file("found") + "*")):
            with open(each, errors="replace") as file:
                texts.append(file.read())
        return "".join(texts).strip()

    def make_fifos(self):
        for fifo in ("arrived", "released"):
            if os.path.exists(self.file(fifo)):
                os.remove(self.file(fifo))
            os.mkfifo(self.file(fifo))
            self.at[fifo] = os.open(self.file(fifo), os.O_RDWR | os.O_NONBLOCK)

    def start(self, program, command, arguments, given):
        """Starts the program from a shell that tells the modes of the line before and after it."""
        self.sent = self.file("sent")
        open(self.sent, "w").close()
        for kind in ("gate", "status", "before", "after"):
            if os.path.exists(self.file(kind)):
                os.remove(self.file(kind))
        os.mkfifo(self.file("gate"))
        command = ("cd %s; trap : INT QUIT; read -r _ < %s; stty -a > %s; env -i %s %s %s; echo $? > %s; stty -a > %s; "
                   "while :; do sleep 100; done" % (
                       shlex.quote(self.folder), self.file("gate"), self.file("before"),
                       " ".join(shlex.quote("%s=%s" % each) for each in given.items()), command, arguments,
                       self.file("status"), self.file("after")))
        tmux("new-session", "-d", "-s", self.pane, "-x", self.size[0], "-y", self.size[1], command)
        tmux("pipe-pane", "-O", "-t", self.pane, "exec cat > %s" % shlex.quote(self.sent))
        shell = tmux("display-message", "-p", "-t", self.pane, "#{pane_pid}").strip()
        time.sleep(0.1)
        with open(self.file("gate"), "w") as gate:
            gate.write("g\n")
        self.find(shell, program[:15])

    def find(self, parent, name):
        """Finds the program's process, a child of the shell, or of what starts it."""
        end = time.monotonic() + WAIT
        while self.read_of("comm").strip() != name and not self.is_over() and time.monotonic() < end:
            self.process, parents = 0, [parent]
            while parents and self.read_of("comm").strip() != name:
                found = subprocess.run(["pgrep", "-P", ",".join(parents)], capture_output=True, text=True).stdout
                parents = found.split()
                self.process = int(parents[0]) if parents else 0

    def read_of(self, name):
        try:
            with open("/proc/%d/%s" % (self.process, name)) as file:
                return file.read()
        except OSError:
            return ""

    def is_over(self):
        return os.path.exists(self.file("after"))

    def take(self, step):
        """Does what a step says."""
        kind, value = step
        if kind == "text":
            tmux("send-keys", "-t", self.pane, "-l", "--", value)
        elif kind == "key":
            tmux("send-keys", "-t", self.pane, "--", value)
        elif kind == "size":
            tmux("resize-window", "-t", self.pane, "-x", value[0], "-y", value[1])
        elif kind == "release" and self.is_clocked:
            os.write(self.at["released"], b"r")
        elif kind == "end":
            os.kill(self.process, signal.SIGTERM)
        elif kind == "alarm" and self.process and not self.is_over():
            os.kill(self.process, signal.SIGALRM)

    def captured(self):
        told = tmux("capture-pane", "-p", "-e", "-N", "-t", self.pane, ";", "display-message", "-p", "-t", self.pane,
                    "#{cursor_flag} #{cursor_y} #{cursor_x} #{alternate_on}")
        rows, _, cursor = told.rstrip("\n").rpartition("\n")
        return rows.replace(self.own, self.shared) + "\n", cursor.split()

    def settle(self):
        """Waits until what is shown stays as it is, and what the program sent as much as it is."""
        end, since, before = time.monotonic() + WAIT, time.monotonic(), None
        while time.monotonic() < end and time.monotonic() < since + STILL:
            now = (self.captured(), os.path.getsize(self.sent))
            if now != before:
                since, before = time.monotonic(), now
            time.sleep(0.02)
        if time.monotonic() > end and os.path.getsize(self.sent) > MOST_SENT:
            os.kill(self.process, signal.SIGKILL)
        self.processor = int((self.read_of("schedstat").split() or [self.processor])[0])

    def shown(self):
        """The rows, and where the cursor is, or how the program ended."""
        rows, cursor = self.captured()
        rows = looks(OWN_COLOURS.sub(lambda code: {"37": "39", "40": "49"}[code[0]], rows))
        if self.is_over():
            return rows, self.ended()
        if cursor[0] == "0" or not self.has_cursor:
            return rows, "cursor hidden" if cursor[0] == "0" else "cursor anywhere"
        return rows, "cursor " + " ".join(cursor[1:3])

    def ended(self):
        """How it left the terminal: status, modes of the line, and what it switched on and did not switch off."""
        told = {}
        for kind in ("status", "before", "after"):
            with open(self.file(kind)) as file:
                told[kind] = file.read()
        modes = tmux("display-message", "-p", "-t", self.pane,
                     "cursor #{cursor_flag}, alternate #{alternate_on}, keypad #{keypad_cursor_flag}#{keypad_flag}, "
                     "mouse #{mouse_any_flag}, place #{cursor_y} #{cursor_x}")
        return "ended with %s, modes of the line %s, %s" % (
            told["status"].strip(), "as before" if told["before"] == told["after"] else "changed", modes.strip())

    def end(self):
        tmux("kill-session", "-t", self.pane)
        for descriptor in self.at.values():
            os.close(descriptor)
        return os.path.getsize(self.sent)
