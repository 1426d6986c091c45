#!/usr/bin/env python3
"""Runs a trial of the gate, and passes it by where the same passed before on this machine.

    kept.py [--anew] [--with TEXT] FILE.. -- COMMAND..

The trial passes where the command ends with 0. Its sum is that of the command's words, of the text, of the files (of a folder all that is in it) and
of the kit. What passed is a file with this name in ${XDG_CACHE_HOME:-~/.cache}/reskjavin-gate, and holds the last line that the command printed.
While it is there, a run prints `kept: ` and that line, and runs nothing, but for --anew. Nothing is kept of a trial that failed, or in which a
file changed. Where the folder can't be written a line says so, and all is tried each time.

Other scripts of the gate keep their own trials so: Kept and sum_of.
"""
import argparse, contextlib, hashlib, os, shutil, signal, subprocess, sys, tempfile, time

FOLDER = os.path.join(os.environ.get("XDG_CACHE_HOME") or os.path.expanduser("~/.cache"), "reskjavin-gate")
# What passed is tried anew after so many days.
DAYS = 30
README = """Each file here stands for a trial that passed on this machine: of .ci/run, or of tools/wrong_bodies.py, in a checkout of the
supervision tree. Its name is the sum of all that the trial read, and its text what the trial said. So the next run passes the same trial
by. tools/kept.py writes these files, and removes what is older than %d days. All can be removed at any time: the next run then tries all.
""" % DAYS


def files_in(path):
    """The files of a folder, or the path itself."""
    if not os.path.isdir(path):
        return [path]
    return sorted(os.path.join(at, name) for at, _, names in os.walk(path) for name in names)


def sum_of(texts, paths):
    """The sum of texts, and of the names, modes and bytes of files; a folder stands for all files in it. One that can't be read has no bytes."""
    found = hashlib.sha256(repr(list(texts)).encode())
    for path in (file for path in paths for file in files_in(path)):
        told = None
        with contextlib.suppress(OSError), open(path, "rb") as it:
            told = os.fstat(it.fileno()).st_mode, hashlib.sha256(it.read()).hexdigest()
        found.update(repr((path, told)).encode())
    return found.hexdigest()


def kit_sum():
    """The sum of the kit's own texts, and of the sizes and times of its programs."""
    folder = os.path.dirname(os.path.realpath(shutil.which("rt") or sys.exit("kept: there is no rt")))
    found = [(name, os.stat(os.path.join(folder, name))) for name in sorted(os.listdir(folder)) if os.path.isfile(os.path.join(folder, name))]
    programs = [(name, it.st_size, it.st_mtime_ns) for name, it in found]
    return sum_of([repr(programs)], [os.path.join(folder, "..", name) for name in ("KIT-ID", "WHAT")])


class Kept:
    """What passed on this machine, by the sums of what was read. With `anew` nothing is found, and what passes is kept all the same."""

    def __init__(self, anew=False):
        self.anew, self.folder = anew, FOLDER
        try:
            os.makedirs(self.folder, 0o700, exist_ok=True)
            self.remove_old()
            self.write("README", README)
        except OSError as error:
            self.give_up(error)

    def give_up(self, error):
        """Keeps nothing from here on, and says so once."""
        if self.folder:
            print("kept: nothing, as %s can't be used: %s" % (self.folder, error.strerror or error), flush=True)
        self.folder = None

    def remove_old(self):
        """Removes what is too old, also what a run that was killed left half written."""
        for it in os.scandir(self.folder):
            with contextlib.suppress(OSError):
                if it.stat().st_mtime < time.time() - DAYS * 24 * 3600:
                    os.remove(it.path)

    def write(self, name, text):
        """Writes a file apart and gives it its name at last, so that no other run meets half of it."""
        with tempfile.NamedTemporaryFile("w", prefix="new-", dir=self.folder, delete=False) as it:
            it.write(text)
        os.replace(it.name, os.path.join(self.folder, name))

    def found(self, name):
        """What the trial of this sum said when it passed, or None where that is not known."""
        if self.anew or not self.folder:
            return None
        try:
            with open(os.path.join(self.folder, name)) as it:
                return it.read()
        except (OSError, ValueError):
            return None

    def keep(self, name, said):
        """Keeps that the trial of this sum passed, and what it said."""
        if self.folder:
            try:
                self.write(name, said)
            except OSError as error:
                self.give_up(error)


def run(command):
    """Runs a command, and passes on what it prints. Its status, and the last line. Where this script is told to end, so is the command."""
    signal.signal(signal.SIGTERM, lambda *_: sys.exit(143))
    signal.signal(signal.SIGINT, lambda *_: sys.exit(130))
    last = ""
    with subprocess.Popen(command, stdout=subprocess.PIPE, text=True, errors="replace") as ran:
        try:
            for line in ran.stdout:
                print(line, end="", flush=True)
                last = line.strip() or last
        except SystemExit:
            ran.terminate()
            raise
    return ran.returncode, last


def main():
    parser = argparse.ArgumentParser(usage="kept.py [--anew] [--with TEXT] FILE.. -- COMMAND..")
    parser.add_argument("--anew", action="store_true")
    parser.add_argument("--with", dest="text", default="")
    parser.add_argument("files", nargs="+")
    at = sys.argv.index("--") if "--" in sys.argv else len(sys.argv)
    words, command = parser.parse_args(sys.argv[1:at]), sys.argv[at + 1 :]
    if not command:
        parser.error("no command")
    kept = Kept(words.anew)

    def sum_now():
        return sum_of([words.text, *command, kit_sum()], [__file__, *words.files])

    sum_then = sum_now()
    said = kept.found(sum_then)
    if said is not None:
        print("kept: " + said.strip())
        return 0
    status, last = run(command)
    if status == 0 and sum_now() == sum_then:
        kept.keep(sum_then, last + "\n")
    return status if status >= 0 else 128 - status


if __name__ == "__main__":
    sys.exit(main())
