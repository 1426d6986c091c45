#!/usr/bin/env python3
"""Says on one screen what failed in a run of .ci/run, from what its trials printed.

    failures.py FOLDER

The folder has a file `rt ci`, which is what that printed, a file `errors`, which is what it printed as such, and for each other trial that failed a
file `NAME.failed` with the command that tries just that, beside NAME, which it printed. For each failure there is a line that says what failed, up
to three lines of why, and what to type to have it alone. Where a program printed something else than its file stdout has, the line of both is shown.
"""
import os, re, shutil, sys

# What runs the tests that rt ci built.
RUNNER = os.path.join(os.path.dirname(os.path.realpath(shutil.which("rt") or "rt")), "rattle-test")
# What fits a screen: lines, and columns.
LINES, COLUMNS = 40, 150
# The lines of why that a failure has.
REASONS = 3
# What a trial says of a failure, where it says more than that.
TOLD = re.compile(r"^failed |NOT REFUSED|left out, and it breaks|another end$|no C compiler|^\w*Error\b")
# What rt says of a program that it ran: the crate, which compiler built it, and why that was not well.
OF_RUN = re.compile(r"rt: (\w+)( \(built by Rattle's own compiler[^)]*\))?:? "
                    r"((?:was not run|the program (?:had|was|ended)|what the program wrote|the file (?:args|status) ).*)")
DIFFERS = re.compile(r"out/(stdout\S*), is .* line (\d+)$")


class Failure:
    """What failed, why, and what to type to have it alone."""

    def __init__(self, what, why, command):
        self.what, self.why, self.command = what, why, command

    def lines(self):
        return [self.what, *["    " + it for it in self.why[:REASONS]], "    alone: " + self.command]


def own_name(function):
    """What `rt check --only` calls a function of this path: its type and its name."""
    words = function.split("::")
    types = [at for at, word in enumerate(words) if word[0].isupper()]
    return "::".join(words[types[0] if types else -1 :])


def of_proof(crate, of_tests, block, said):
    """A crate that is not proved, or its tests: the functions, or else the errors, or else the last words of its check, or else of rt ci's errors."""
    found = [re.match(r"fn (\S+): (no proof|not proved)(?!: it calls)(.*)", line) for line in block]
    functions = [it for it in found if it]
    errors = [it for it in block if re.match(r"\S+:\d+:\d+: error|error\b|rt: (?!note)|rattle\b.*: (?!nothing was built)", it)]
    why = [it.group()[3:] for it in functions] or errors or block[-REASONS:] or said[-REASONS:]
    only = " --only '%s'" % own_name(functions[0].group(1)) if functions and not of_tests else ""
    command = "cd crates/%s && rt %s%s" % (crate, "test" if of_tests else "check", only)
    return Failure("%s: %s not proved" % (crate, "its tests are" if of_tests else "it is"), why, command)


def of_proofs(lines, said):
    """The crates and the tests that are not proved, and those for which only a library is lacking, as one."""
    block, above = [], []
    for line in lines:
        ended = re.fullmatch(r"rt: (\w+)(: its tests are)? (NOT PROVED|proved|is kept: .*)(: its library \w+ failed)?", line)
        if ended and ended.group(4):
            above.append(ended.group(1))
        elif ended and ended.group(3) == "NOT PROVED":
            yield of_proof(ended.group(1), bool(ended.group(2)), block, said)
        if ended or line.startswith("== "):
            block = []
        else:
            block.append(line)
    if above:
        yield Failure("not proved, as a library of theirs is not: " + " ".join(above), [], "rt ci, once that is proved")


def of_edits(lines):
    """The edits that were not refused."""
    for line in lines:
        found = re.match(r"rt: (must-fail (\w+)/\S+): (NOT (?:REFUSED|TRIED).*)", line)
        if found:
            yield Failure(found.group(1), [found.group(3)], "rt must-fail " + found.group(2))


def of_tests(lines):
    """The tests that failed."""
    failed = []
    for line in lines:
        ended = re.fullmatch(r"rt: (\w+): its tests (FAILED|passed)", line)
        if ended and ended.group(2) == "FAILED":
            word = failed[0].split()[1] if failed else ""
            command = "%s --filter '%s' crates/%s/out/%s_tests" % (RUNNER, word, ended.group(1), ended.group(1))
            yield Failure("%s: its tests failed" % ended.group(1), failed, command)
        if ended:
            failed = []
        elif re.match(r"test \S+ \.\.\. FAILED", line):
            failed.append(line)


def line_of(path, number):
    """A line of a file, as it is shown where it is the first that differs."""
    try:
        return repr(open(path, errors="replace").read().split("\n")[number - 1])
    except (OSError, IndexError):
        return "nothing"


def run_alone(crate, ending):
    """What to type to run a program that was built, whose name has this ending, as rt ci runs it, and to compare what it prints."""
    has = lambda name: os.path.exists("crates/%s/%s" % (crate, name))
    data = "cp -R $p/data/. . && " if has("data") else ""
    words = "xargs -d '\\n' -a $p/args " if has("args") else ""
    given = " <$p/stdin" if has("stdin") else " </dev/null"
    return "p=$PWD/crates/%s; (cd $(mktemp -d) && %s%s$p/out/%s%s) | diff $p/stdout -" % (crate, data, words, crate + ending, given)


def of_runs(lines):
    """The programs that ended or printed otherwise than they should."""
    why = {}
    for crate, by, told in (found.groups() for found in map(OF_RUN.match, lines) if found):
        lines_told = why.setdefault((crate, ".by-rattle" if by else ""), [])
        lines_told.append(told)
        at = DIFFERS.search(told)
        if at:
            file, number = at.group(1), int(at.group(2))
            lines_told.append("wanted:  " + line_of("crates/%s/stdout" % crate, number))
            lines_told.append("printed: " + line_of("crates/%s/out/%s" % (crate, file), number))
    for (crate, ending), told in why.items():
        # The lines that differ say most.
        shown = [it for it in told if it.startswith(("what the", "wanted:", "printed:"))]
        yield Failure("%s: the program" % crate, shown or told, run_alone(crate, ending))


def of_others(lines, found):
    """What rt ci names at its end, and nothing that was found tells of."""
    named = {word for line in lines if line.startswith("rt: FAILED: ") for word in line.split()[2:] if not word.startswith("(")}
    left = named - {word for failure in found for word in re.findall(r"[\w./-]+", failure.what)}
    return [Failure("also failed: " + " ".join(sorted(left)), [], "rt ci")] if left else []


def of_trial(folder, name):
    """A trial beside rt ci that failed."""
    # What tools/kept.py would pass by is tried alone too.
    command = open(os.path.join(folder, name + ".failed")).read().strip().split(" -- ")[-1]
    lines = open(os.path.join(folder, name), errors="replace").read().splitlines()
    bodies = [found.group(1) for found in (re.match(r"wrong body (\S+): (?:NOT REFUSED|left out, and it breaks)", line) for line in lines) if found]
    if bodies:
        command = "python3 tools/wrong_bodies.py " + " ".join(bodies[:REASONS])
    return Failure(name, [it for it in lines if TOLD.search(it)] or lines[-REASONS:], command)


def all_failures(folder):
    """What failed in rt ci, and then the other trials."""
    lines, said = (open(os.path.join(folder, name), errors="replace").read().splitlines() for name in ("rt ci", "errors"))
    found = [*of_proofs(lines, said), *of_edits(lines), *of_tests(lines), *of_runs(lines)]
    found += of_others(lines, found)
    # It refused to begin, or ended half way.
    if not found and not re.fullmatch(r"\d+ passed, 0 failed", (lines or [""])[-1]):
        found = [Failure("rt ci", [*lines[-1:], *said][-REASONS:], "rt ci")]
    trials = sorted(it.removesuffix(".failed") for it in os.listdir(folder) if it.endswith(".failed"))
    return found + [of_trial(folder, name) for name in trials]


def main():
    if len(sys.argv) != 2:
        sys.exit("usage: failures.py FOLDER")
    os.chdir(os.path.join(os.path.dirname(os.path.abspath(__file__)), ".."))
    shown, more = ["== what failed"], []
    for failure in all_failures(sys.argv[1]):
        if len(shown) + len(failure.lines()) < LINES - 1 and not more:
            shown += failure.lines()
        else:
            more.append(failure.what)
    shown += ["also %d more: %s" % (len(more), "; ".join(more))] if more else []
    # A command is not cut: what is left of it does something else.
    print("\n".join(it if it.startswith("    alone: ") else it[:COLUMNS] for it in shown))


main()
