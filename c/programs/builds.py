"""Fetches the sources of programs and builds each with the curses.h in c/ and with ncurses. Part of `try`."""
import glob
import os
import re
import shutil
import subprocess

HERE = os.path.dirname(os.path.abspath(__file__))
SUITES = ("stable", "oldstable")
# Headers of ncurses: where ours has none of that name, a program that asks for it has to fail, as it does where ncurses
# is not installed.
FOREIGN = ("term.h", "termcap.h", "term_entry.h", "tic.h", "form.h", "menu.h", "eti.h", "ncurses_dll.h", "nc_tparm.h",
           "panel.h", "unctrl.h", "ncurses.h", "curses.h")
FOREIGN_FOLDERS = ("ncursesw", "ncurses")
SANITIZERS = "-fsanitize=address,undefined "


def mirror():
    """Where this machine has its packages from."""
    for name in ["/etc/apt/sources.list", *glob.glob("/etc/apt/sources.list.d/*")]:
        if os.path.exists(name):
            with open(name) as file:
                found = re.search(r"^(?:deb|URIs:)\s+(?:\[[^]]*\]\s*)?(https?:\S+)", file.read(), re.M)
            if found and found[1].rstrip("/").endswith("/debian"):
                return found[1]
    raise SystemExit("try: no source of Debian's packages in the lists of apt-get; see --sources")


class Sources:
    """A folder of the upstream archives of source packages, without the distribution's changes."""

    def __init__(self, folder):
        self.folder = folder
        self.ready = set()

    def prepare(self, suite):
        """A folder for apt-get of its own, so that the machine's lists stay as they are."""
        folder = os.path.join(self.folder, suite)
        for part in ("lists/partial", "cache/archives/partial"):
            os.makedirs(os.path.join(folder, part), exist_ok=True)
        given = {**os.environ, "APT_CONFIG": os.path.join(folder, "apt.conf")}
        if suite in self.ready or os.path.exists(given["APT_CONFIG"]):
            return folder, given
        with open(os.path.join(folder, "list"), "w") as file:
            file.write("deb-src %s %s main\n" % (mirror(), suite))
        with open(given["APT_CONFIG"], "w") as file:
            file.write('Dir::Etc::sourcelist "%s/list";\nDir::Etc::sourceparts "-";\nDir::State::lists "%s/lists";\n'
                       'Dir::Cache "%s/cache";\nAPT::Sandbox::User "root";\n' % (folder, folder, folder))
        subprocess.run(["apt-get", "-q", "update"], env=given, check=True, capture_output=True)
        self.ready.add(suite)
        return folder, given

    def archives(self, package):
        found = []
        for place in ("", *SUITES):
            found += glob.glob(os.path.join(self.folder, place, package + "_*.orig.tar.*"))
        return [each for each in found if not each.endswith(".asc")]

    def archive(self, package):
        """The upstream archive of a package, fetched if it is not there; None where it is not to be had. A program of
        our own is its file here."""
        if package.endswith(".c"):
            return os.path.join(HERE, package)
        for suite in SUITES:
            if self.archives(package):
                break
            folder, given = self.prepare(suite)
            # It fails where any part is gone; the upstream archive alone is needed.
            subprocess.run(["apt-get", "-q", "source", "--download-only", "--only-source", package], env=given,
                           cwd=folder, capture_output=True)
        return (self.archives(package) or [None])[0]


def hide_foreign(folder, prefix):
    """A folder with a header that fails for each of ncurses that ours does not have."""
    ours = os.path.join(prefix, "include/huttavel")
    shutil.rmtree(folder, ignore_errors=True)
    for place in ("", *FOREIGN_FOLDERS):
        os.makedirs(os.path.join(folder, place), exist_ok=True)
        for name in FOREIGN:
            if not os.path.exists(os.path.join(ours, place, name)):
                with open(os.path.join(folder, place, name), "w") as file:
                    file.write("#error %s of ncurses\n" % name)


def environment(kind, prefix, hidden, is_sanitized):
    """What a build over ours or over ncurses is given."""
    given = {name: value for name, value in os.environ.items() if name not in ("CPPFLAGS", "LDFLAGS", "CFLAGS")}
    # The time that a program shows as its own is the same for both.
    given.update(CPPFLAGS="", LDFLAGS="", LC_ALL="C", SOURCE_DATE_EPOCH="1000000000")
    if kind == "ours":
        given.update(CPPFLAGS="-I%s/include/huttavel -I%s" % (prefix, hidden),
                     LDFLAGS="%s-L%s/lib/huttavel" % (SANITIZERS if is_sanitized else "", prefix),
                     PKG_CONFIG_PATH="%s/lib/huttavel/pkgconfig" % prefix)
    return given


# What a compiler or a linker says of a name that is not there.
MISSING = (r"implicit declaration of function [`‘']([^'’]+)", r"[`‘']([^'’]+)['’] undeclared",
           r"unknown type name [`‘']([^'’]+)", r"undefined reference to [`‘']([^'’]+)",
           r"[`‘']([^'’]+)['’] was not declared in this scope", r"[`‘']([^'’]+)['’] has no member",
           r"has no member named [`‘']([^'’]+)", r"#error (\S+) of ncurses", r"fatal error: (\S+): No such file")


def missing_names(said, also):
    """The names that a build over ours lacks: what its compiler and linker say, less what they say over ncurses."""
    found = []
    for form in MISSING:
        for name in re.findall(form, said):
            if name not in found and not re.search(r"[`‘']%s['’]" % re.escape(name), also):
                found.append(name)
    return found


def unpack(archive, folder):
    """A new folder with a source in a folder of its own."""
    os.makedirs(folder)
    if archive.endswith(".c"):
        os.mkdir(os.path.join(folder, "source"))
        shutil.copy2(archive, os.path.join(folder, "source"))
    else:
        subprocess.run(["tar", "xf", archive, "-C", folder], check=True)


class Build:
    """A program that is built in a folder of its own, with what was said."""

    def __init__(self, work, name, section, kind, prefix, archive, is_sanitized=False):
        name = section.get("set", name)
        self.kind, self.folder = kind, os.path.join(work, "build", kind, name)
        self.log = os.path.join(work, "build", kind, name + ".log")
        self.given = environment(kind, prefix, os.path.join(work, "hidden"), is_sanitized)
        if not os.path.exists(self.folder):
            unpack(archive, self.folder)
        inner = section.get("folder", "*")
        self.place = [each for each in glob.glob(os.path.join(self.folder, inner)) if os.path.isdir(each)][0]
        self.binary = os.path.join(self.place, section["binary"])
        self.commands = section["build"]

    def make(self):
        """Builds it unless it is there; whether it is there now, over the right library."""
        if not os.path.exists(self.log):
            with open(self.log, "w") as log:
                subprocess.run(["nice", "-n", "5", "sh", "-c", self.commands], cwd=self.place, env=self.given,
                               stdout=log, stderr=subprocess.STDOUT, stdin=subprocess.DEVNULL)
        return self.is_made()

    def said(self):
        with open(self.log, errors="replace") as file:
            return file.read()

    def foreign(self):
        """Shared libraries of ncurses that the program itself is linked with; others that it needs may need them."""
        told = subprocess.run(["readelf", "-d", self.binary], capture_output=True, text=True).stdout
        return re.findall(r"NEEDED.*\[(lib(?:ncurses|tinfo|form|menu|panel)w?)\.so", told)

    def is_made(self):
        return os.path.exists(self.binary) and (self.kind != "ours" or not self.foreign())
