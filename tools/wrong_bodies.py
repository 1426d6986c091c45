#!/usr/bin/env python3
"""Tries the wrong bodies: the prover must refuse each function that one of them is put into.

    wrong_bodies.py [--minutes N] [--anew] [CRATE | CRATE/NAME]..

Without names, those that rt ci passes by: crates/CRATE/wrong-bodies/NAME.body. One has lines 'file:', 'old:' and 'new:', as rt must-fail reads
them in crates/CRATE/must-fail/NAME.edit, and a line 'only:' with the function whose promise it breaks. With names, the edits that have such a line are
tried so too. The change is made in a copy of the crate, and that function is checked there with those that it calls (rattle check --only), over the
libraries that rt ci, or rt lib in each crate, left in out/rlib.

What is proved of a function rests on what others promise, and not on their bodies. So wrong bodies of different functions are tried
together, and alone where the change isn't in one body. One is refused where the prover reads it and finds no proof of that function.

One that was refused is kept on this machine (tools/kept.py), and passed by while all that its trial read is as it was: its own file, its crate's
src, specs and proofs and line of crates.txt, the built libraries below, the kit and this script. With --anew all are tried.

With --minutes none is begun later than so many minutes from now. Those that break a promise of PROMISES come first. A line names each that was
left out. The last line says how many were tried, kept, not refused and left out.

The status is 0 where each that was tried is refused and none of PROMISES was left out, else 1, and 130 after Ctrl-C. No process and no copy is left
afterwards.
"""
import argparse, concurrent.futures, glob, os, random, re, shutil, signal, subprocess, sys, tempfile, time

# The toolchain's own words for a check of a crate.
sys.path.insert(0, os.path.dirname(os.path.realpath(shutil.which("rt") or "rt")))
sys.dont_write_bytecode = True
import kept, rtlib

# The memory that a check may want, in kilobytes.
CHECK_MEMORY = 3_000_000
# The most wrong bodies that are tried together. A round costs 5 to 9 seconds beside what its functions take, and one of 18 wants more than 2 GB. Only
# two crates have more than 12 functions with wrong bodies: a greater number would save two rounds of 78, and make the last ones long.
TOGETHER = 12
# The promises of the whole, by the names of the wrong bodies that break them.
PROMISES = """
    all-held-at-some-time waiters-once-a-step wait-for-a-new-up up-before-subscribing down-before-failure old-generation-dies pause-off-by-one
    tally-forgets-newest repeat-keeps-old-text old-sid-for-new-service cut-too-early second-spelling transcript-twice room-drops-input
    row-of-a-later-step opening-shot-forever orders-swapped death-not-given one-lock-for-all always-full waiters-begin-anew half-a-message
    """.split()
# The words for a proof that names what the change took away, which says nothing of a promise.
NAME_LOST = r"has no field|is not in scope|has no `|was not admitted"
RUNNING = set()


class WrongBody:
    """A change of a crate, and the function whose promise it breaks."""

    def __init__(self, path):
        self.path, self.crate = path, path.split("/")[1]
        self.label = "%s/%s" % (self.crate, os.path.basename(path).split(".")[0])
        self.file, self.only, self.changes = "", "", []
        for line in open(path).read().splitlines():
            word, _, text = line.partition(": ")
            if word in ("file", "only"):
                setattr(self, word, text.strip())
            elif word == "old":
                self.changes.append((text, ""))
            elif word == "new":
                self.changes[-1] = self.changes[-1][0], text

    def breaks_a_promise(self):
        """Whether it breaks a promise of the whole."""
        return self.label.split("/")[1] in PROMISES

    def is_one_body(self):
        """Whether nothing is changed but the body of one function."""
        return self.file.startswith("src/") and len(self.changes) == 1 and not re.match(r" *(pub )?(const|type) ", self.changes[0][0])

    def sum(self, crate_sum):
        """The sum of all that its trial reads, by that of its crate."""
        return kept.sum_of([crate_sum], [self.path])

    def made_in(self, text):
        """The text with the change, or None where what it changes does not stand there just once."""
        for old, new in self.changes:
            if text.count(old) != 1:
                return None
            text = text.replace(old, new)
        return text

    def goal_left(self, said):
        """What was not proved of its function, in what a check said; None where that is proved, or nothing is known of it."""
        line = re.search(r"^fn \S*::%s: (no proof|not proved).*$" % re.escape(self.only), said, re.M)
        if not line:
            return None
        goals = re.findall(r"`search` did not prove `([^`]*)`", line.group())
        # That it calls what is not proved doesn't count. Where more than its body was changed, the proof may fail in a lemma.
        place = r"(?:\S*/)?%s/\w+" % self.only.replace("::", "/") if self.is_one_body() else r"\S*"
        errors = re.findall(r"^\./proofs/%s\.antt:\d+:\d+: error: (.*)$" % place, said, re.M)
        goals += [error.split("`")[1] if error.startswith("`") else error[:80] for error in errors if not re.search(NAME_LOST, error)]
        return goals[0] if goals else None


class Copy:
    """A copy of a crate, in which wrong bodies are tried."""

    def __init__(self, crate, place):
        self.crate, self.place = crate, place
        for part in rtlib.PARTS:
            if os.path.isdir(os.path.join(crate.folder, part)):
                shutil.copytree(os.path.join(crate.folder, part), os.path.join(place, part))

    def check(self, functions):
        """Checks some functions, and those that they call. What was said."""
        only = [word for name in functions for word in ("--only", name)]
        words = [rtlib.RATTLE, "check", *self.crate.words(["--jobs", "1"], keeps=False), "--incremental", "kept", *only]
        how = dict(stdin=subprocess.DEVNULL, stdout=subprocess.PIPE, stderr=subprocess.STDOUT, text=True, errors="replace", start_new_session=True)
        with subprocess.Popen(words, cwd=self.place, **how) as rattle:
            RUNNING.add(rattle.pid)
            said, _ = rattle.communicate()
            RUNNING.discard(rattle.pid)
        return said

    def check_with(self, bodies):
        """Checks the functions of some wrong bodies, with all their changes made. What was said."""
        right = {file: open(os.path.join(self.place, file)).read() for file in {body.file for body in bodies}}
        wrong = dict(right)
        for body in bodies:
            wrong[body.file] = wrong[body.file] and body.made_in(wrong[body.file])
        if None in wrong.values():
            return "what is to be changed does not stand in its file just once"
        self.write(wrong)
        said = self.check([body.only for body in bodies])
        self.write(right)
        return said

    def write(self, texts):
        for file, text in texts.items():
            with open(os.path.join(self.place, file), "w") as out:
                out.write(text)


def sum_of_crate(crate):
    """The sum of all that a check of this crate reads. Of a library that is its file format, which holds the sum of the others."""
    sources = [os.path.join(os.path.relpath(crate.folder), part) for part in rtlib.PARTS]
    libraries = [os.path.join(os.path.relpath(it.rlib), "format") for it in crate.below()]
    return kept.sum_of([repr((crate.said, crate.is_program)), kept.kit_sum()], ["tools/wrong_bodies.py", *sources, *libraries])


def try_together(copy, bodies):
    """Tries some wrong bodies of one crate together, and those that are not refused each alone. Which are not refused at last."""
    said = copy.check_with(bodies)
    # A text that the compiler refuses says nothing of any function.
    is_read = not re.search(r"^error|\berror\[", said, re.M)
    left = []
    for body in bodies:
        goal = body.goal_left(said) if is_read else None
        if goal is None:
            left.append(body)
        else:
            print("wrong body %s: refused, %s: %s" % (body.label, body.only, goal), flush=True)
    if left and len(bodies) == 1:
        print("wrong body %s: NOT REFUSED, %s:\n%s" % (left[0].label, left[0].only, "\n".join(said.splitlines()[-25:])), flush=True)
        return left
    return [it for body in left for it in try_together(copy, [body])]


def try_round(bodies, crate, folder, store):
    """Tries some wrong bodies in a copy of their crate, and keeps those that are refused. Which are not."""
    before = sum_of_crate(crate)
    names = {body: body.sum(before) for body in bodies}
    with tempfile.TemporaryDirectory(dir=folder) as place:
        left = try_together(Copy(crate, place), bodies)
    after = sum_of_crate(crate)
    for body in bodies:
        # Where files changed meanwhile, nobody knows what was read.
        if body not in left and body.sum(after) == names[body]:
            store.keep(names[body], "wrong body %s: refused\n" % body.label)
    return left


def in_rounds(bodies):
    """Rounds of wrong bodies of one crate that can be tried together, the largest first."""
    rounds = []
    for body in bodies:
        fits = (it for it in rounds if body.is_one_body() and it[0].is_one_body() and it[0].crate == body.crate and len(it) < TOGETHER
                and body.only not in [other.only for other in it])
        found = next(fits, None)
        if found:
            found.append(body)
        else:
            rounds.append([body])
    return sorted(rounds, key=len, reverse=True)


def try_all(bodies, crates, folder, store, end):
    """Tries wrong bodies, so many rounds at a time, and begins none after the moment `end`. Which are not refused, and which were left out."""

    def try_in_time(bodies):
        if time.monotonic() > end:
            return [], bodies
        return try_round(bodies, crates[bodies[0].crate], folder, store), []

    rounds = in_rounds(bodies)
    if end != float("inf"):
        # Which are left out is not always the same.
        random.shuffle(rounds)
        rounds.sort(key=lambda bodies: not any(body.breaks_a_promise() for body in bodies))
    with concurrent.futures.ThreadPoolExecutor(usable_processors()) as pool:
        ends = list(pool.map(try_in_time, rounds))
    return [body for left, _ in ends for body in left], [body for _, late in ends for body in late]


def usable_processors():
    """How many checks may run at the same time: RT_JOBS, or one for each processor, where each finds memory."""
    if os.environ.get("RT_JOBS", "").isdigit():
        return max(1, int(os.environ["RT_JOBS"]))
    words = dict(line.split()[:2] for line in open("/proc/meminfo"))
    return max(1, min(len(os.sched_getaffinity(0)), int(words["MemAvailable:"]) // CHECK_MEMORY))


def wanted(names):
    """The wrong bodies of these crates, or of these names; those that rt ci passes by where there is none."""
    paths = glob.glob("crates/*/wrong-bodies/*.body") + (glob.glob("crates/*/must-fail/*.edit") if names else [])
    bodies = [WrongBody(path) for path in sorted(paths)]
    return [body for body in bodies if body.only and (not names or body.crate in names or body.label in names)]


def to_try(bodies, crates, store):
    """The wrong bodies of which it isn't kept that they were refused; a line for each crate that has others."""
    sums = {name: sum_of_crate(crates[name]) for name in sorted({body.crate for body in bodies})}
    left = [body for body in bodies if store.found(body.sum(sums[body.crate])) is None]
    for crate in sums:
        counts = [sum(body.crate == crate for body in some) for some in (bodies, left)]
        if counts[0] > counts[1]:
            print("kept: wrong bodies of %s: %d of %d were refused before" % (crate, counts[0] - counts[1], counts[0]), flush=True)
    return left


def read_words():
    """What is asked for, and the wrong bodies that are meant."""
    parser = argparse.ArgumentParser(usage="wrong_bodies.py [--minutes N] [--anew] [CRATE | CRATE/NAME]..")
    parser.add_argument("--minutes", type=float, default=float("inf"))
    parser.add_argument("--anew", action="store_true")
    parser.add_argument("names", nargs="*")
    words = parser.parse_args()
    strays = glob.glob("crates/*/must-fail/*.md")
    if strays:
        sys.exit("wrong_bodies: a body that is tried by function is wrong-bodies/NAME.body, and not %s" % " ".join(sorted(strays)))
    return words, wanted(words.names) or sys.exit("wrong_bodies: no such crate, and no such wrong body")


def main():
    os.chdir(os.path.join(os.path.dirname(os.path.abspath(__file__)), ".."))
    words, bodies = read_words()
    end = time.monotonic() + words.minutes * 60
    crates = {crate.name: crate for crate in rtlib.crates_below(os.getcwd())}
    store = kept.Kept(words.anew)
    left = to_try(bodies, crates, store)
    with tempfile.TemporaryDirectory() as folder:

        def leave(*_):
            for pid in list(RUNNING):
                os.killpg(pid, signal.SIGKILL)
            shutil.rmtree(folder, ignore_errors=True)
            os._exit(130)

        for number in (signal.SIGINT, signal.SIGTERM, signal.SIGHUP):
            signal.signal(number, leave)
        not_refused, left_out = try_all(left, crates, folder, store, end)
    for body in sorted(left_out, key=lambda body: body.label):
        print("wrong body %s: left out%s" % (body.label, ", and it breaks a promise of the whole" * body.breaks_a_promise()))
    counts = len(left) - len(left_out), len(bodies) - len(left), len(not_refused), len(left_out)
    print("%d wrong bodies tried, %d kept, %d not refused, %d left out for want of time" % counts)
    return 1 if not_refused or any(body.breaks_a_promise() for body in left_out) else 0


sys.exit(main())
