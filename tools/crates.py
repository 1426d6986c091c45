#!/usr/bin/env python3
"""Makes the picture and the tables of crates in docs/ARCHITECTURE.md of crates.txt, and counts the wrong bodies in the table of docs/CLAIMS.md.

    crates.py            compares them, and tells what differs; the status is 1 where something does
    crates.py --write    writes them

A line `# WORD` of crates.txt heads the crates of a layer, lowest layer first. In the picture the highest stands on top, each crate above all that it uses.
A table has the crates of its page's part in the order of crates.txt; what each of them owns is told by the page alone.
"""
import glob, os, re, sys

PAGE = "docs/ARCHITECTURE.md"
CLAIMS = "docs/CLAIMS.md"
# The layer that the picture leaves out.
TESTS = "tests"
# The most columns of a row of the picture.
COLUMNS = 130


def layers():
    """Each layer with its crates, and what each crate uses, of those that are listed."""
    found, uses = {}, {}
    for line in open("crates.txt").read().splitlines():
        if re.fullmatch(r"# [a-z]+", line):
            layer = found.setdefault(line[2:], [])
        elif line and not line.startswith("#"):
            name, _, libraries = line.partition(":")
            layer.append(name.split()[0])
            uses[layer[-1]] = libraries.split()
    return found, {name: [it for it in words if it in uses] for name, words in uses.items()}


def upside_down(found, uses):
    """What uses a crate of a higher layer, or of its own layer below it in the list, with that crate."""
    listed = [crate for crates in found.values() for crate in crates]
    return [(crate, it) for crate in listed for it in uses[crate] if listed.index(it) > listed.index(crate)]


def picture(found, uses):
    """The rows of the picture."""
    rows = []
    for layer, crates in found.items():
        if layer == TESTS:
            continue
        height = {}
        for crate in crates:
            height[crate] = 1 + max((height[it] for it in uses[crate] if it in height), default=-1)
        steps = [[it for it in crates if height[it] == step] for step in range(1 + max(height.values()))]
        rows += [(layer if step == len(steps) - 1 else "", names) for step, names in enumerate(steps)]
    return [("%-13s%s" % (word, "  ".join(names))).rstrip() for word, names in reversed(rows)]


def in_order(table, listed):
    """A table of crates in the order of crates.txt, and the crates that it has."""
    rows = dict(re.findall(r"^\| `(\w+)` \| (.*) \|$", table, re.M))
    return "".join("| `%s` | %s |\n" % (name, rows[name]) for name in listed if name in rows), list(rows)


def made(text, found, uses):
    """The page as it is to be, and the crates that its tables have."""
    text = re.sub(r"(?<=```text\n)program.*?(?=```)", lambda _: "\n".join(picture(found, uses)) + "\n", text, count=1, flags=re.S)
    listed, told = [crate for crates in found.values() for crate in crates], []

    def table(match):
        rows, names = in_order(match.group(2), listed)
        told.extend(names)
        return match.group(1) + rows

    return re.sub(r"(\| crate \| what it (?:owns|tests) \|\n\|---\|---\|\n)((?:\| `.*\n)+)", table, text), told


def counted(text):
    """The page of claims with the number of wrong bodies in each row, and the crates that its rows have."""
    told = []

    def row(match):
        names = re.findall(r"`(\w+)`", match.group(2))
        told.extend(names)
        bodies = [it for name in names for kind in ("must-fail/*.edit", "wrong-bodies/*.body") for it in glob.glob("crates/%s/%s" % (name, kind))]
        return match.group(1) + str(len(bodies)) + match.group(3)

    return re.sub(r"^(\| (`\w+`(?:, `\w+`)*) \| [^|]+ \| )\d+( \|)", row, text, flags=re.M), told


def main():
    os.chdir(os.path.join(os.path.dirname(os.path.abspath(__file__)), ".."))
    found, uses = layers()
    pages = {page: open(page).read() for page in (PAGE, CLAIMS)}
    drawn, told = made(pages[PAGE], found, uses)
    claims, claimed = counted(pages[CLAIMS])
    faults = ["crates.txt: %s stands above %s, which it uses" % it for it in upside_down(found, uses)]
    faults += ["%s: %s has no row that says what it is for" % (PAGE, it) for it in uses if it not in told]
    faults += ["%s: a row tells of %s, which crates.txt has not" % (PAGE, it) for it in told if it not in uses]
    faults += ["%s: %s has no row" % (CLAIMS, it) for it in uses if it not in claimed and it not in found[TESTS]]
    for page, after in ((PAGE, drawn), (CLAIMS, claims)):
        if pages[page] != after and sys.argv[1:] == ["--write"]:
            open(page, "w").write(after)
        elif pages[page] != after:
            faults.append("%s: its picture or a table is not as it is to be: python3 tools/crates.py --write" % page)
    faults += ["%s: a row of the picture is too long: %s" % (PAGE, it) for it in picture(found, uses) if len(it) > COLUMNS]
    print("\n".join(faults) or "crates: the picture and the tables are as crates.txt has them")
    return 1 if faults else 0


sys.exit(main())
