#!/usr/bin/env python3
"""Takes the memory of a running tree while it makes 600,000 steps.

    run_memory.py PROGRAM [SERVICES [RECORD]]

PROGRAM is s6_tree. It has so many services (1), and one more that dies at once, again and again, for ticks and reports. One connection sends letters
to an event directory, 64 messages at a time, kills a service after each thousand, and asks for all rows. Printed are the steps by handovers, the server's
peak (VmHWM), the greatest of the samples, one each 20 ms, and what each handover left, all in kB. With RECORD the runs are recorded there. All folders are temporary."""
import os, shutil, socket, subprocess, sys, tempfile, threading, time

sys.dont_write_bytecode = True
from beside_s6 import services

STEPS, BATCH = 600_000, 64


def memory(pid, word):
    with open("/proc/%d/status" % pid) as file:
        return next(int(line.split()[1]) for line in file if line.startswith(word))


def sample(pid, samples):
    """The resident memory each 20 ms, until the process is gone."""
    while True:
        try:
            samples.append(memory(pid, "VmRSS"))
        except (OSError, StopIteration):
            return
        time.sleep(0.02)


def send_all(path, names):
    """Sends letters to a directory; each reply is awaited."""
    stream = socket.socket(socket.AF_UNIX)
    stream.connect(path)
    reader = stream.makefile("rb")

    def ask(lines):
        stream.sendall(b"".join(line + b"\n" for line in lines))
        for _ in lines:
            while reader.readline().strip():
                pass

    ask([b"mkdir d"])
    for batch in range(STEPS // BATCH):
        ask([b"send dir d ab"] * BATCH)
        if batch % 16 == 0:
            ask([b"rows", b"svc %s k" % names[batch // 16 % len(names)].encode()])


def main(program, count="1", record=None):
    program = os.path.abspath(program)
    folder = tempfile.mkdtemp()
    place, path, errors = (os.path.join(folder, name) for name in ("services", "socket", "errors"))
    os.mkdir(place)
    names = ["web%02d" % number for number in range(int(count))]
    services(place, names)
    os.mkdir(os.path.join(place, "dies"))
    with open(os.path.join(place, "dies", "run"), "w") as run:
        run.write("#!/bin/sh\nexit 1\n")
    os.chmod(run.name, 0o755)
    server = subprocess.Popen([program, "svscan", place, path] + [record] * bool(record), stderr=open(errors, "wb"))
    while not os.path.exists(path):
        time.sleep(0.01)
    time.sleep(1)
    samples = []
    threading.Thread(target=sample, args=(server.pid, samples), daemon=True).start()
    begun = time.monotonic()
    send_all(path, names)
    seconds = time.monotonic() - begun
    peak = memory(server.pid, "VmHWM")
    handovers = open(errors).read().count("svscan: handover")
    left = [after for before, after in zip(samples, samples[1:]) if after < before * 0.7]
    subprocess.run([program, "svscanctl", path, "-t"], check=True)
    print("%s services: %d messages in %.1f s, %d handovers; VmHWM %d kB, samples at most %d kB; after handovers %s kB; status %d" % (
        count, STEPS, seconds, handovers, peak, max(samples), " ".join(map(str, left)) or "none", server.wait(timeout=60)))
    shutil.rmtree(folder)


if __name__ == "__main__":
    main(*sys.argv[1:])
