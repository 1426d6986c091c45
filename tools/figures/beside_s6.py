#!/usr/bin/env python3
"""Takes the figures of a running tree beside those of Debian's s6.

    beside_s6.py S6_TREE [SECONDS]

S6_TREE is the program; SECONDS is how long an idle tree is watched (60). Without s6-svscan on the path only s6_tree is measured.
Each figure is the median of its tries. Nothing is kept: all folders are temporary."""
import os, shutil, signal, socket, statistics, subprocess, sys, tempfile, time

RUN = "#!/bin/sh\necho >&3\nexec sleep 86400 3>&-\n"


def services(folder, names):
    """Makes services of these names, which tell that they are ready."""
    for name in names:
        name = os.path.join(folder, name)
        os.mkdir(name)
        with open(os.path.join(name, "run"), "w") as run:
            run.write(RUN)
        os.chmod(os.path.join(name, "run"), 0o755)
        with open(os.path.join(name, "notification-fd"), "w") as file:
            file.write("3\n")


def quiet(*words):
    return subprocess.run(words, stdout=subprocess.DEVNULL, stderr=subprocess.DEVNULL).returncode


def number(*words):
    """The number that a program prints. One that fails, or prints none, ends the figures."""
    return int(subprocess.run(words, capture_output=True, text=True, check=True).stdout)


class Tree:
    """A tree of s6_tree."""

    name = "s6_tree"

    def __init__(self, program, count):
        self.program = program
        self.folder = tempfile.mkdtemp()
        self.place = os.path.join(self.folder, "services")
        os.mkdir(self.place)
        services(self.place, ["s%03d" % number for number in range(count)])
        self.socket = os.path.join(self.folder, "socket")
        self.count = count

    def start(self):
        self.server = subprocess.Popen([self.program, "svscan", self.place, self.socket], stderr=subprocess.DEVNULL)
        while not os.path.exists(self.socket):
            time.sleep(0.001)
        self.wait_ready()

    def wait_ready(self):
        names = ["s%03d" % n for n in range(self.count)]
        for first in range(0, len(names), 16):
            assert quiet(self.program, "svwait", self.socket, "-U", *names[first:first + 16]) == 0

    def pid(self, name):
        """Its process number, or -1 where it isn't up."""
        return number(self.program, "svstat", self.socket, "-o", "pid", name)

    def down(self, name):
        assert quiet(self.program, "svc", self.socket, "-d", name) == 0
        assert quiet(self.program, "svwait", self.socket, "-D", name) == 0

    def up(self, name):
        assert quiet(self.program, "svc", self.socket, "-u", name) == 0
        assert quiet(self.program, "svwait", self.socket, "-U", name) == 0

    def stat(self, name):
        quiet(self.program, "svstat", self.socket, "-o", "up", name)

    def pids(self):
        return [self.server.pid]

    def end(self):
        quiet(self.program, "svscanctl", self.socket, "-t")
        status = self.server.wait(timeout=60)
        shutil.rmtree(self.folder)
        assert status == 0, status


class S6:
    """The same of s6."""

    name = "s6"

    def __init__(self, program, count):
        self.place = tempfile.mkdtemp()
        services(self.place, ["s%03d" % number for number in range(count)])
        self.count = count

    def start(self):
        self.server = subprocess.Popen(["s6-svscan", "-c", "1000", self.place], stderr=subprocess.DEVNULL, stdout=subprocess.DEVNULL)
        while not all(os.path.exists(self.path("s%03d" % n) + "/supervise/status") for n in range(self.count)):
            time.sleep(0.001)
        self.wait_ready()

    def path(self, name):
        return os.path.join(self.place, name)

    def wait_ready(self):
        assert quiet("s6-svwait", "-a", "-U", *[self.path("s%03d" % n) for n in range(self.count)]) == 0

    def pid(self, name):
        return number("s6-svstat", "-o", "pid", self.path(name))

    def down(self, name):
        assert quiet("s6-svc", "-d", "-wD", self.path(name)) == 0

    def up(self, name):
        assert quiet("s6-svc", "-u", "-wU", self.path(name)) == 0

    def stat(self, name):
        quiet("s6-svstat", "-o", "up", self.path(name))

    def pids(self):
        out = subprocess.run(["pgrep", "-P", str(self.server.pid), "s6-supervise"], capture_output=True, text=True).stdout
        return [self.server.pid] + [int(pid) for pid in out.split()]

    def end(self):
        quiet("s6-svscanctl", "-t", self.place)
        self.server.wait(timeout=60)
        shutil.rmtree(self.place)


def seconds(action):
    start = time.monotonic()
    action()
    return time.monotonic() - start


def restart(tree):
    """Milliseconds from the SIGKILL of a ready daemon to another process number in its status."""
    old = tree.pid("s000")
    if old <= 1:
        sys.exit("s000 isn't up: nothing is killed")
    # The file stands for this very process. A number that was given to another one since is found out by asking again.
    daemon = os.pidfd_open(old)
    if tree.pid("s000") != old:
        sys.exit("s000 was started again: nothing is killed")
    start = time.monotonic()
    signal.pidfd_send_signal(daemon, signal.SIGKILL)
    os.close(daemon)
    while True:
        new = tree.pid("s000")
        if new > 0 and new != old:
            return 1000 * (time.monotonic() - start)


def memory(pids):
    """Kilobytes that belong to these processes alone or in part (PSS), and their threads."""
    kilobytes, threads = 0, 0
    for pid in pids:
        for line in open("/proc/%d/smaps_rollup" % pid):
            if line.startswith("Pss:"):
                kilobytes += int(line.split()[1])
        threads += len(os.listdir("/proc/%d/task" % pid))
    return kilobytes, threads


def usage(pids):
    """Processor time in ticks, and context switches."""
    ticks, switches = 0, 0
    for pid in pids:
        fields = open("/proc/%d/stat" % pid).read().rsplit(")", 1)[1].split()
        ticks += int(fields[11]) + int(fields[12])
        for task in os.listdir("/proc/%d/task" % pid):
            for line in open("/proc/%d/task/%s/status" % (pid, task)):
                if "ctxt_switches" in line:
                    switches += int(line.split()[1])
    return ticks, switches


def requests(path, count):
    """Status requests a second on one connection, one after the other."""
    stream = socket.socket(socket.AF_UNIX)
    stream.connect(path)
    file = stream.makefile("rb")
    start = time.monotonic()
    for _ in range(count):
        stream.sendall(b"status s000\n")
        file.readline()
        file.readline()
    return count / (time.monotonic() - start)


def measure(kind, program, idle):
    def tell(what, value):
        print("%-8s %-44s %s" % (kind.name, what, value), flush=True)

    for count in (1, 50):
        tries = []
        for _ in range(5):
            tree = kind(program, count)
            tries.append(1000 * seconds(tree.start))
            tree.end()
        tell("start of %d, all ready" % count, "%.1f ms" % statistics.median(tries))
    for count in (1, 64, 256):
        tree = kind(program, count)
        tree.start()
        time.sleep(1.5)
        kilobytes, threads = memory(tree.pids())
        tell("%d services: memory, threads, processes" % count, "%d KB, %d, %d" % (kilobytes, threads, len(tree.pids())))
        if count == 1:
            tries = []
            for _ in range(11):
                tree.wait_ready()
                time.sleep(1.2)
                tries.append(restart(tree))
            tell("SIGKILL to the next process number", "%.1f ms" % statistics.median(tries))
            stops = []
            for _ in range(11):
                stops.append(1000 * seconds(lambda: tree.down("s000")))
                tree.up("s000")
            tell("stop, and wait for it", "%.1f ms" % statistics.median(stops))
            calls = seconds(lambda: [tree.stat("s000") for _ in range(200)])
            tell("status, a client each", "%.0f a second" % (200 / calls))
            if kind is Tree:
                tell("status, on one connection", "%.0f a second" % requests(tree.socket, 20000))
        if count == 64:
            time.sleep(1)
            pids = tree.pids()
            before = usage(pids)
            time.sleep(idle)
            after = usage(pids)
            tell("64 services, %d idle seconds" % idle, "%d ms of processor, %d context switches"
                 % (10 * (after[0] - before[0]), after[1] - before[1]))
        tree.end()


def main():
    program = os.path.abspath(sys.argv[1])
    idle = int(sys.argv[2]) if len(sys.argv) > 2 else 60
    measure(Tree, program, idle)
    if shutil.which("s6-svscan"):
        measure(S6, program, idle)


if __name__ == "__main__":
    main()
