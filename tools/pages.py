#!/usr/bin/env python3
"""Runs what the pages show, and compares what it prints with what they say.

    S6_TREE=PROGRAM python3 tools/pages.py [PAGE..]

A line for each block that can be run: `ok PAGE:LINE`, `skipped PAGE:LINE: WHY` or `failed PAGE:LINE: ..`. Status 1 where one failed. Other
blocks, as tables that a tool prints, are passed over.

- A block of commands is fenced as `sh`, or is indented and begins with `$t`, `t=`, `sh`, `rt` or `S6_TREE=`. Each line is a command. The blocks of
  a page are run in their order, by one shell and on one tree: that of examples/services, but for a page that starts its own. Each command
  ends with 0, or with 124 where it is a `timeout` or a `wait $!`. A comment `# -> TEXT` behind a command is the last line that it prints.
  Digits stand for any digits, and `..` for anything; what another comment says is not compared.
- A block of two columns is a script and its transcript. A script without a head line is the end of the one named before it, `Script: ..`.
- A block with moments in front is the story of the script named before it.
- A fenced block with lines `> ` and `< ` is a session on the socket of a tree with two services, `broken` and `clock`.

What is written lies in a folder below /tmp, which is gone afterwards, and so are the trees, also where TERM or Ctrl-C ends the script.
"""
import os, pathlib, re, select, shutil, signal, socket, subprocess, sys, tempfile, time

TOP = os.path.dirname(os.path.dirname(os.path.abspath(__file__)))
PROGRAM = shutil.which(os.environ.get("S6_TREE", "s6_tree")) or sys.exit("pages.py: no program: set S6_TREE")
PROGRAM = os.path.abspath(PROGRAM)
PAGES = ["README.md", *("docs/%s.md" % it for it in "COMMANDS OPERATIONS RECIPES PROTOCOL STORY SCRIPT TOUR".split())]
# What runs for minutes, or proves, or needs what is not everywhere; each is run by hand, as CONTRIBUTING says.
APART = ("sh examples/look.sh", "sh examples/start.sh", "rt ci", "S6_TREE=PROGRAM", "sh examples/recipes/try.sh")
# The pages whose blocks begin with a folder and a tree of their own.
WITH_OWN_TREE = ("docs/OPERATIONS.md",)
HEAD = "s6-script "
# The seconds that a command has.
LIMIT = 60


def blocks(text):
    """Each block: its line, what it is fenced as (`indented` where it is not), and its lines."""
    lines, at = text.splitlines(), 0
    while at < len(lines):
        first, found = at, []
        if fence := re.fullmatch(r"```(\w*)", lines[at]):
            at += 1
            while at < len(lines) and lines[at] != "```":
                found.append(lines[at])
                at += 1
            yield first + 1, fence.group(1), found
        elif lines[at].startswith("    ") and (not at or not lines[at - 1].strip()):
            while at < len(lines) and (lines[at].startswith("    ") or not lines[at].strip() and lines[at + 1 : at + 2] and lines[at + 1].startswith("    ")):
                found.append(lines[at][4:])
                at += 1
            yield first + 1, "indented", found
        at += 1


def alike(said, printed):
    """Whether what was printed is what the page says, but for its numbers."""
    pattern = re.sub(r"\d+", r"\\d+", re.escape(said.strip())).replace(r"\.\.", ".*")
    return re.fullmatch(pattern, printed.strip()) is not None


class Shell:
    """A shell that is told one command after the other."""

    def __init__(self, place, printed, names):
        self.printed = printed
        how = dict(stdin=subprocess.PIPE, stdout=subprocess.PIPE, stderr=subprocess.DEVNULL, start_new_session=True)
        self.process = subprocess.Popen(["bash"], cwd=place, env={**os.environ, **names}, **how)

    def run(self, command):
        """The status of a command, and what it wrote: into a new file, since what ran before may still write into its own."""
        pathlib.Path(self.printed).unlink(missing_ok=True)
        said = b""
        try:
            self.process.stdin.write(b"{ %s\n} >'%s' 2>&1\necho $?\n" % (command.encode(), self.printed.encode()))
            self.process.stdin.flush()
            if select.select([self.process.stdout], [], [], LIMIT)[0]:
                said = self.process.stdout.readline()
        except OSError:
            pass
        if not said:
            self.kill()
        wrote = pathlib.Path(self.printed).read_text(errors="replace") if os.path.exists(self.printed) else ""
        return (int(said), wrote) if said else (-1, wrote + " (it did not end)")

    def kill(self):
        try:
            os.killpg(self.process.pid, signal.SIGKILL)
        except ProcessLookupError:
            pass

    def end(self):
        try:
            self.process.stdin.close()
        except OSError:
            pass
        try:
            self.process.wait(2)
        except subprocess.TimeoutExpired:
            pass
        self.kill()  # and what it left in its background
        self.process.wait()


class Trial:
    """One page on a tree of its own, in a folder of its own."""

    def __init__(self, page, folder):
        self.page, self.folder, self.failed, self.script = page, folder, 0, None
        self.socket, self.record = os.path.join(folder, "s6_tree.socket"), os.path.join(folder, "s6_tree.record")
        shutil.copytree(os.path.join(TOP, "examples/services"), os.path.join(folder, "services"))
        # What a page writes at the top of the repository, as image/, it writes into the folder.
        top = os.path.join(folder, "top")
        os.makedirs(top)
        for name in ("README.md", "crates", "docs", "examples"):
            os.symlink(os.path.join(TOP, name), os.path.join(top, name))
        os.makedirs(os.path.join(folder, "bin"))
        os.symlink(PROGRAM, os.path.join(folder, "bin/s6_tree"))
        self.places = [("/tmp/s6_tree.socket", self.socket), ("/tmp/s6_tree.record", self.record), ("crates/s6_tree/out/s6_tree", PROGRAM)]
        self.places += [("/usr/local/libexec/s6_tree/entry.sh", os.path.join(TOP, "examples/container/entry.sh")), ("/tmp/run.svg", self.record + ".svg")]
        path = os.path.join(folder, "bin") + ":" + os.environ["PATH"]
        self.shell = Shell(top, os.path.join(folder, "printed"), {"PATH": path, "S6_TREE": PROGRAM, "t": PROGRAM, "S": self.socket, "TMPDIR": folder})

    def tell(self, line, said):
        self.failed += said.startswith("failed")
        word, _, rest = said.partition(": ")
        print("%s %s:%d%s" % (word, self.page, line, ": " + rest if rest else ""), flush=True)

    def start_tree(self):
        """The tree of examples/services; of a page with sessions without the greeter."""
        if self.page == "docs/PROTOCOL.md":
            shutil.rmtree(os.path.join(self.folder, "services/greeter"))
        words = ["sh", os.path.join(TOP, "examples/container/entry.sh"), os.path.join(self.folder, "services"), self.socket, self.record]
        with open(os.path.join(self.folder, "errors"), "w") as errors:
            how = dict(stdout=errors, stderr=errors, stdin=subprocess.DEVNULL, start_new_session=True)
            self.tree = subprocess.Popen(words, env={**os.environ, "S6_TREE": PROGRAM}, **how)
        self.until("clock", "ready")
        self.until("broken", "failed")

    def until(self, name, state):
        """Waits until a service is in this state."""
        last = time.monotonic() + LIMIT
        while " %s " % state not in self.printed("list", name):
            if time.monotonic() > last:
                raise TimeoutError("%s is not %s" % (name, state))
            time.sleep(0.1)

    def printed(self, tool, *words):
        return subprocess.run([PROGRAM, tool, self.socket, *words], capture_output=True, text=True, timeout=LIMIT).stdout

    def is_served(self, place):
        """Whether a tree serves on this socket. It is told to end."""
        ran = subprocess.run([PROGRAM, "svscanctl", place, "-t"], capture_output=True, text=True, timeout=LIMIT)
        return "no server" not in ran.stderr

    def end(self):
        """Ends the shell, and each tree that serves on a socket in the folder."""
        self.shell.end()
        last = time.monotonic() + LIMIT
        while left := [str(it) for it in pathlib.Path(self.folder).rglob("*") if it.is_socket() and self.is_served(it)]:
            if time.monotonic() > last:
                return self.tell(0, "failed: its trees did not end: %s" % left)
            time.sleep(0.2)

    def commands(self, lines):
        """Runs the commands of a block."""
        text = "\n".join(lines)
        for part in re.findall(r"(?:[^\n]*\\\n)*[^\n]+", text):
            command, _, said = part.partition("# -> ")
            for name, place in self.places:
                command = command.replace(name, place)
            command = re.sub(r"\s+# .*", "", command)
            if "Ctrl-C ends it" in part:
                command = "timeout -s INT 3 " + command
            status, printed = self.shell.run(command)
            last = printed.splitlines()[-1] if printed else ""
            waited = re.search(r"\btimeout |wait \$!\s*$", command)
            if status not in ((0, 124) if waited else (0,)) or said and not alike(said, last):
                return "failed: %s: status %d, %r" % (part.strip(), status, printed[-300:])
        return "ok"

    def columns(self, lines):
        """Replays a script, and looks for the blocks of the transcript beside it."""
        rows = [re.fullmatch(r"(\S+(?: \S+)*)?(?: {2,}(\S.*))?", it) for it in lines]
        script, wanted = ([it.group(side) for it in rows if it and it.group(side)] for side in (1, 2))
        if script[0].startswith(HEAD):
            given = "\n".join(script).replace(" (no newline)", "") + "\n" * ("(no newline)" not in script[-1])
        elif self.script:
            given = open(os.path.join(TOP, self.script)).read()
        else:
            return "failed: no script"
        ran = subprocess.run([PROGRAM, "replay"], input=given, capture_output=True, text=True)
        printed = re.split(r"\n(?=\d+ )", "\n" + ran.stdout + ran.stderr)
        missing = [it for it in re.split(r"\n(?=\d+ )", "\n" + "\n".join(wanted)) if it.strip() not in map(str.strip, printed)]
        return "failed: not in the transcript: %s" % missing if missing else "ok"

    def story(self, lines):
        """Tells a script as a story."""
        with open(os.path.join(TOP, self.script)) as script:
            ran = subprocess.run([PROGRAM, "replay", "--story"], stdin=script, capture_output=True, text=True)
        return "ok" if ran.stdout.splitlines() == lines else "failed: %s" % ran.stdout

    def session(self, lines):
        """Sends what the page sends, and compares what comes."""
        self.until("clock", "ready")
        pid = self.printed("svstat", "-o", "pid", "clock")
        with socket.socket(socket.AF_UNIX) as stream:
            stream.connect(self.socket)
            stream.settimeout(10)
            reader = stream.makefile("r", encoding="ascii")
            for line in lines:
                if line.startswith("> "):
                    stream.sendall(line[2:].encode() + b"\n")
                elif not alike(line[1:], came := reader.readline()):
                    return "failed: %r, and %r came" % (line, came)
        # The next session begins with another clock.
        while "> svc clock k" in lines and self.printed("svstat", "-o", "pid", "clock") == pid:
            time.sleep(0.1)
        return "ok"

    def block(self, kind, lines):
        text = "\n".join(lines)
        if kind == "text" and lines[0].startswith("> "):
            return self.session(lines)
        if kind == "text" and re.match(r"\d+\.\d{3} ", lines[0]) and self.script:
            return self.story(lines)
        if kind in ("text", "indented") and re.search(r"^(\d+ \d+ [a-z]+|s6-script \d$)", lines[0]) and re.search(r" {2}\d+ [a-z]", text):
            return self.columns(lines)
        if lines[0] == HEAD + "2":
            ran = subprocess.run([PROGRAM, "replay", "--check"], input=text + "\n", capture_output=True, text=True)
            return "ok" if ran.stdout.startswith("legal ") else "failed: %s" % ran.stdout
        if kind == "sh" or kind == "indented" and re.match(r"(\$t|t=\S+ S=|sh|rt|S6_TREE=) ?", lines[0]):
            if lines[0].startswith(APART):
                return "skipped: it is run by hand"
            return self.commands(lines)
        return None

    def run(self):
        line = 0
        try:
            with open(os.path.join(TOP, self.page)) as page:
                text = page.read()
            if self.page not in WITH_OWN_TREE:
                self.start_tree()
            for line, kind, lines in blocks(text):
                before = re.findall(r"Script: `([^`]+)`", "\n".join(text.splitlines()[:line]))
                self.script = before[-1] if before else None
                if said := lines and self.block(kind, lines):
                    self.tell(line, said)
        except (OSError, subprocess.SubprocessError) as fault:
            self.tell(line, "failed: %s" % fault)


def main():
    signal.signal(signal.SIGTERM, lambda number, frame: sys.exit(128 + number))
    failed = 0
    for page in sys.argv[1:] or PAGES:
        with tempfile.TemporaryDirectory(prefix="s6-pages-", ignore_cleanup_errors=True) as folder:
            trial = Trial(page, folder)
            try:
                trial.run()
            finally:
                trial.end()
            failed += trial.failed
    return 1 if failed else 0


sys.exit(main())
