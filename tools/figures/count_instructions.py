#!/usr/bin/env python3
"""Counts the instructions that a line of a replay takes, of a program that is built with no proof, as LLVM builds a proved one.

    count_instructions.py [LINES]

It needs valgrind. The kit's `rt try` makes the program's module with checks and unoptimised; here a copy of the kit keeps that module, the checks are taken
out, and the module is compiled as rt compiles a proved program. So a change is counted in some five minutes, before it is proved. A count is some 3 %
above that of the program that the gate builds. The profile stays in out/instructions, for callgrind_annotate.
"""
import os, re, shutil, subprocess, sys

FOLDER = os.path.abspath("out/instructions")
KIT = os.path.dirname(os.path.dirname(os.path.realpath(shutil.which("rt") or "/opt/rattle/bin/rt")))
SERVICES = (1, 64, 256)
# Words of a compile by rt; the last two lines are those of a proved program.
FLAGS = """--target=x86_64-unknown-linux-gnu -march=x86-64 -mllvm -no-trap-after-noreturn -ffunction-sections -fdata-sections -mllvm -trap-unreachable
-mllvm -no-x86-call-frame-opt -mllvm -disable-machine-licm -mllvm -disable-postra-machine-licm -mllvm -sink-common-insts=false --no-default-config
-no-canonical-prefixes -fintegrated-cc1 -fPIE -O3 -Xclang -fmerge-functions -mllvm -mergefunc-use-aliases -fno-vectorize -fno-slp-vectorize""".split()
CHECKS = re.compile(r'^\s+call void @(llvm\.trap\(|"rattle-llvm-checks::)')
POISON = re.compile(r"^  call void @llvm\.memset\.p0\.i64\(ptr %r\d+, i8 -86,")


def copy_of_kit():
    """A copy of the kit whose compiler keeps the module that it gets, and ends."""
    kit = f"{FOLDER}/kit"
    shutil.rmtree(kit, ignore_errors=True)
    os.makedirs(f"{kit}/toolchain/bin")
    for name in os.listdir(KIT):
        if name not in ("toolchain", "bin"):
            os.symlink(f"{KIT}/{name}", f"{kit}/{name}")
    shutil.copytree(f"{KIT}/bin", f"{kit}/bin")
    os.symlink(f"{KIT}/toolchain/lib", f"{kit}/toolchain/lib")
    for name in os.listdir(f"{KIT}/toolchain/bin"):
        if name != "clang":
            os.symlink(f"{KIT}/toolchain/bin/{name}", f"{kit}/toolchain/bin/{name}")
    with open(f"{kit}/toolchain/bin/clang", "w") as file:
        file.write(f"""#!/bin/bash
for word in "$@"; do
    case $word in *.bc) [ "$(stat -c %s "$word")" -gt 100000 ] && cp "$word" {FOLDER}/module.bc && exit 1 ;; esac
done
exec -a clang {KIT}/toolchain/bin/clang "$@"
""")
    os.chmod(f"{kit}/toolchain/bin/clang", 0o755)
    return kit


def inlined():
    """What LLVM is to do with each function that the sources mark as inlined always or never, by crate and name."""
    found = {}
    for folder, _, files in os.walk("crates"):
        for name in files:
            if name.endswith(".rt"):
                text = open(os.path.join(folder, name)).read()
                for word, function in re.findall(r"#\[inline\((always|never)\)\]\s*(?:pub(?:\(crate\))? )?fn (\w+)", text):
                    found[folder.split(os.sep)[1], function] = {"always": "alwaysinline", "never": "noinline"}[word]
    return found


def without_checks(module, to):
    """Writes the module as a proved one: no checks, no poison, and what is inlined always or never marked so."""
    marked = inlined()
    with open(module) as file, open(to, "w") as out:
        for line in file:
            if CHECKS.match(line) or POISON.match(line):
                continue
            if line.startswith("attributes #"):
                line = re.sub(r' sanitize_address| "(frame-pointer|probe-stack|stack-probe-size)"="[^"]*"', "", line).replace("{ }", "{ nounwind }")
            if line.startswith("define "):
                path = re.search(r'@"?([^"(]*)', line).group(1).split("::<")[0].split("::")
                if (path[0], path[-1]) in marked:
                    line = re.sub(r"(#\d+) \{", marked[path[0], path[-1]] + r" \1 {", line)
            out.write(line)


def build():
    kit, clang = copy_of_kit(), [f"{KIT}/toolchain/bin/clang", "-x", "ir"]
    subprocess.run([f"{kit}/bin/rt", "try", "--steps", "1", "--seconds", "60", "--", "replay"], cwd="crates/s6_tree", stdin=subprocess.DEVNULL,
                   stdout=subprocess.DEVNULL, stderr=subprocess.DEVNULL)
    subprocess.run([*clang, f"{FOLDER}/module.bc", "-S", "-emit-llvm", "-O0", "-o", f"{FOLDER}/checked.ll"], check=True)
    without_checks(f"{FOLDER}/checked.ll", f"{FOLDER}/plain.ll")
    subprocess.run([*clang, f"--sysroot={KIT}/toolchain", *FLAGS, "-c", f"{FOLDER}/plain.ll", "-o", f"{FOLDER}/program.o"], check=True)
    subprocess.run([f"{KIT}/bin/rattle-link", "--target", "x86_64-unknown-linux-gnu", "--toolchain", f"{KIT}/toolchain", "-o", f"{FOLDER}/program",
                    f"{FOLDER}/program.o", f"{KIT}/c/libos_c.a", f"{KIT}/c/liblibc_c.a"], check=True, stderr=subprocess.DEVNULL)


def count(services, lines):
    script = subprocess.run(["sh", "examples/restarts.sh", str(services), str(lines)], capture_output=True, check=True).stdout
    ran = subprocess.run(["valgrind", "--tool=callgrind", f"--callgrind-out-file={FOLDER}/profile.{services}", f"{FOLDER}/program", "replay"],
                         input=script, stdout=subprocess.DEVNULL, stderr=subprocess.PIPE, check=True)
    return int(re.search(rb"refs:\s+([\d,]+)", ran.stderr).group(1).replace(b",", b"")) // lines


def main():
    lines = int(sys.argv[1]) if len(sys.argv) > 1 else 10_000
    os.makedirs(FOLDER, exist_ok=True)
    build()
    for services in SERVICES:
        print(f"{services} services: {count(services, lines)} instructions a line")


main()
