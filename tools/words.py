#!/usr/bin/env python3
"""Finds words of docs/GLOSSARY.md, types and constants that mean two things.

    words.py    a line for each type that has the name of a word's type and stands in another crate, or that the glossary names and no crate has;
                for each other name that types of two crates have; and for each name of constants that have two values

A type is looked at whether others see it or not, and whether its crate is one of tests; an alias that two crates write in the same way is one type. Of
constants those of tests are passed over: each is a text or a number of one test. The status is 1 where a line was printed.
"""
import collections, glob, os, re, sys

PAGE = "docs/GLOSSARY.md"
TYPE = re.compile(r"^(?:pub(?:\([^)]*\))? )?(?:struct|enum|trait|type) (\w+)([^;{]*)", re.M)
CONSTANT = re.compile(r"^ *(?:pub(?:\([^)]*\))? )?const (\w+): [^=]*=\s*([^;]*);", re.M)

# Names that stand for one thing in two crates, or for two things that nobody takes for each other, each with the reason.
REVIEWED = {}


def crates(with_tests):
    """The crates of crates.txt."""
    text = open("crates.txt").read()
    return re.findall(r"^(\w+)[^:\n]*:", text if with_tests else text.partition("# tests\n")[0], re.M)


def sources(with_tests):
    """Each crate with the text of each of its files."""
    for crate in crates(with_tests):
        for path in sorted(glob.glob("crates/%s/src/**/*.rt" % crate, recursive=True)):
            yield crate, open(path).read()


def types():
    """In which crates each type is declared, and how."""
    found = collections.defaultdict(dict)
    for crate, text in sources(True):
        for name, rest in TYPE.findall(text):
            found[name][crate] = rest
    return found


def values():
    """Which values the constants of each name have, and in which crates."""
    found = collections.defaultdict(lambda: collections.defaultdict(set))
    for crate, text in sources(False):
        for name, value in CONSTANT.findall(text):
            value = " ".join(value.split())
            found[name][value.replace("_", "") if value[0].isdigit() else value].add(crate)
    return found


def words():
    """Each word of the glossary with the crate and the name of its type, where it has one."""
    for word, where in re.findall(r"^\| \*\*(.+?)\*\*.*\| (.*?) \|$", open(PAGE).read(), re.M):
        for crate, path in re.findall(r"`(\w+)::([\w:{}, ]+)`", where):
            for name in re.findall(r"(?<!:)\b[A-Z]\w+", path):
                yield word, crate, name


def of_words(declared, meant):
    """A line for each word whose type is not where the glossary says, or is also elsewhere. `meant` gets the names of such types."""
    for word, crate, name in words():
        meant.add(name)
        if crate not in declared[name]:
            yield "%s: `%s::%s` is not there" % (word, crate, name)
        for other in sorted(set(declared[name]) - {crate}):
            yield "%s: %s has a type %s too" % (word, other, name)


def of_types(declared, meant):
    """A line for each other type of two crates. An alias, whose text is all that it is, may stand in several."""
    for name, places in sorted(declared.items()):
        is_one_alias = len(set(places.values())) == 1 and "=" in next(iter(places.values()))
        if len(places) > 1 and not is_one_alias and name not in meant | REVIEWED.keys():
            yield "type %s: %s" % (name, ", ".join(sorted(places)))


def of_constants():
    """A line for each constant that has two values."""
    for name, found in sorted(values().items()):
        if len(found) > 1 and name not in REVIEWED:
            yield "constant %s: %s" % (name, "; ".join("%s in %s" % (value[:30], ", ".join(sorted(where))) for value, where in sorted(found.items())))


def main():
    os.chdir(os.path.join(os.path.dirname(os.path.abspath(__file__)), ".."))
    declared, meant = types(), set()
    lines = [*of_words(declared, meant), *of_types(declared, meant), *of_constants()]
    print("\n".join(lines) or "words: each name has one meaning")
    return 1 if lines else 0


sys.exit(main())
