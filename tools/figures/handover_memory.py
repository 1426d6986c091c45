#!/usr/bin/env python3
"""Takes the memory of a running tree after 1, 10 and 50 handovers of runs of 10,000 steps.

    handover_memory.py PROGRAM

PROGRAM is s6_tree, whose runs are as long as S6_TREE_HANDOVER says. One client makes and cancels waiters until the runs have gone by. Printed are the server's resident memory and its peak, in kB. All folders are temporary."""
import os, shutil, socket, subprocess, sys, tempfile, time

STEPS = 10_000


def memory(pid):
    found = {}
    with open("/proc/%d/status" % pid) as file:
        for line in file:
            if line.startswith(("VmRSS", "VmHWM")):
                name, size = line.split(":")
                found[name] = int(size.split()[0])
    return found


def main():
    program = os.path.abspath(sys.argv[1])
    folder = tempfile.mkdtemp()
    service = os.path.join(folder, "services", "web")
    os.makedirs(service)
    with open(os.path.join(service, "run"), "w") as run:
        run.write("#!/bin/sh\nexec sleep 86400\n")
    os.chmod(os.path.join(service, "run"), 0o755)
    path = os.path.join(folder, "socket")
    errors = open(os.path.join(folder, "errors"), "w+")
    words = [program, "svscan", os.path.join(folder, "services"), path]
    server = subprocess.Popen(words, stderr=errors, env=dict(os.environ, S6_TREE_HANDOVER=str(STEPS)))
    while not os.path.exists(path):
        time.sleep(0.01)
    assert subprocess.run([program, "svwait", path, "web"]).returncode == 0
    client = socket.socket(socket.AF_UNIX)
    client.connect(path)
    stream = client.makefile("rwb")

    def ask(line):
        stream.write(line + b"\n")
        stream.flush()
        reply = stream.readline().strip()
        stream.readline()
        return reply

    def handovers():
        with open(errors.name) as file:
            return file.read().count("svscan: handover")

    for wanted in (1, 10, 50):
        while handovers() < wanted:
            for _ in range(500):
                waiter = ask(b"wait D a 0 web").split()[1]
                assert ask(b"cancel " + waiter) == b"done"
        print("%d handovers: %s" % (handovers(), memory(server.pid)), flush=True)
    subprocess.run([program, "svscanctl", path, "-t"])
    print("svscan: %d" % server.wait(timeout=60))
    shutil.rmtree(folder)


main()
