#!/usr/bin/env python3
"""Makes manual pages and completion files from the help texts of the program.

    S6_TREE=PROGRAM python3 tools/manual.py [OUT]      writes OUT/man/*.1 and OUT/completion/*; OUT is docs
    S6_TREE=PROGRAM python3 tools/manual.py --check    compares those in docs; status 1 where one is stale

A help text has a line `usage: ..`, paragraphs, and sections: a word and a colon, then indented lines. Words of a section that stand
two spaces in and begin with a dash are options.
"""
import os, re, subprocess, sys

TOP = os.path.dirname(os.path.dirname(os.path.abspath(__file__)))
PROGRAM = os.environ.get("S6_TREE", "s6_tree")


def help_text(*words):
    return subprocess.run([PROGRAM, *words, "--help"], check=True, capture_output=True, text=True).stdout


def tools(overview):
    """The names of the tools and what each does, as the overview has them."""
    section = re.search(r"^tools:\n((?:  .*\n)+)", overview, re.M).group(1)
    return [tuple(line.split(None, 1)) for line in section.splitlines()]


def escaped(line):
    line = line.replace("\\", "\\e").replace("-", "\\-").replace("'", "\\(aq")
    return "\\&" + line if line.startswith(".") else line


def page(name, does, text):
    """A manual page of section 1: the text as it is, its heads as sections."""
    lines = [f'.TH "{name.upper()}" "1" "" "Reskjavin" "s6_tree"', ".SH NAME", f"{escaped(name)} \\- {escaped(does)}", ".SH SYNOPSIS", ".nf"]
    usage, _, rest = text.partition("\n\n")
    lines += [escaped(line[7:]) for line in usage.splitlines()]
    lines += [".fi", ".SH DESCRIPTION", ".nf"]
    before = ""
    for line in rest.splitlines():
        head = not before and re.fullmatch(r"([a-z][a-z ]*)(, .*)?:", line)
        lines += [".fi", f".SH {escaped(head.group(1).upper())}", ".nf"] if head else [escaped(line)]
        before = line
    return "\n".join([*lines, ".fi"]) + "\n"


def options(text):
    """The options of a tool, each with the word for its value, if it has one, and what it does."""
    usage, _, rest = text.partition("\n\n")
    section = re.search(r"^options:\n((?:  .*\n)+)", rest, re.M)
    lines = re.sub(r"\n {4,}", " ", section.group(1)).splitlines() if section else []
    told = {}
    for line in lines:
        option, value, does = re.fullmatch(r"  (-\S+)(?: ([A-Z]+))? +(\S.*)", line).groups()
        told[option.rstrip(",")] = (value or "", re.split(r"[:.;] |[.;:]$", does)[0])
    for option, value in re.findall(r"(?<![-\w])(-[A-Za-z])(?: ([A-Z]+))?(?![\w.])", usage):
        told.setdefault(option, (value, ""))
    return [(option, *rest) for option, rest in told.items() if option not in ("--", "-h", "--help")]


def bash(texts):
    cases = "".join(f"        {name}) words='{' '.join([option for option, _, _ in options(text)] + ['--help'])}' ;;\n" for name, _, text in texts)
    return f"""# Completion of s6_tree for bash. Made by tools/manual.py: change the help texts, not this file.
_s6_tree() {{
    local word=${{COMP_WORDS[COMP_CWORD]}} words=
    if [ "$COMP_CWORD" = 1 ]; then
        COMPREPLY=($(compgen -W '{' '.join(['help', '--help', '--version'] + [name for name, _, _ in texts])}' -- "$word"))
        return
    fi
    case ${{COMP_WORDS[1]}} in
        help) [ "$COMP_CWORD" = 2 ] && COMPREPLY=($(compgen -W '{' '.join(name for name, _, _ in texts)}' -- "$word")) && return ;;
{cases}    esac
    case $word in
        -*) COMPREPLY=($(compgen -W "$words" -- "$word")) ;;
        *) COMPREPLY=($(compgen -f -- "$word")) ;;
    esac
}}
complete -o filenames -F _s6_tree s6_tree
"""


def quoted(text):
    return text.replace("'", "'\\''").replace(":", "\\:").replace("[", "\\[").replace("]", "\\]")


def zsh(texts):
    names = "".join(f"        '{name}:{quoted(does)}'\n" for name, does, _ in texts)
    cases = "".join(
        f"        {name}) _arguments {''.join(zsh_option(*option) + ' ' for option in options(text))}'--help[print the help text]' '*:file:_files' ;;\n"
        for name, _, text in texts)
    return f"""#compdef s6_tree
# Completion of s6_tree for zsh. Made by tools/manual.py: change the help texts, not this file.
_s6_tree() {{
    local -a tools=(
        'help:print the help text of a tool'
{names}    )
    if (( CURRENT == 2 )); then
        _describe tool tools
        return
    fi
    shift words
    (( CURRENT-- ))
    case $words[1] in
        help) _describe tool tools ;;
{cases}    esac
}}
_s6_tree "$@"
"""


def zsh_option(option, value, does):
    return f"'{option}[{quoted(does or value)}]" + (f":{value}:'" if value else "'")


def made():
    """The files by their paths below docs."""
    overview = help_text()
    texts = [(name, does, help_text(name)) for name, does in tools(overview)]
    files = {"man/s6_tree.1": page("s6_tree", "the programs of a proved s6 supervision tree", overview)}
    files.update({f"man/s6_tree-{name}.1": page(f"s6_tree-{name}", does, text) for name, does, text in texts})
    files.update({"completion/s6_tree.bash": bash(texts), "completion/_s6_tree": zsh(texts)})
    return files


def read(path):
    try:
        with open(path) as file:
            return file.read()
    except FileNotFoundError:
        return None


def check(files):
    stale = sorted(path for path, text in files.items() if read(f"{TOP}/docs/{path}") != text)
    there = {f"{folder}/{name}" for folder in ("man", "completion") for name in os.listdir(f"{TOP}/docs/{folder}")}
    for path in stale + sorted(there - set(files)):
        print(f"docs/{path} is stale: run S6_TREE=PROGRAM python3 tools/manual.py")
    sys.exit(1 if stale or there - set(files) else 0)


def main():
    files = made()
    if sys.argv[1:] == ["--check"]:
        check(files)
    out = sys.argv[1] if len(sys.argv) > 1 else f"{TOP}/docs"
    for path, text in files.items():
        os.makedirs(os.path.dirname(f"{out}/{path}"), exist_ok=True)
        with open(f"{out}/{path}", "w") as file:
            file.write(text)


main()
