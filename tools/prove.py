#!/usr/bin/env python3
"""Proves the libraries that a program stands on, side by side, and builds the program.

    prove.py PROGRAM

A crate is begun once those that it uses are proved, and of several the one that has the longest way to the program. Two runs of rt in one
checkout wait for each other where they stand on the same crate, so each check runs in a copy of the sources, in out/lanes, and what is
proved there is linked into this checkout. What rt prints goes to out/logs/CRATE.log. A crate that was proved here before is not proved
again unless it has changed, or one that it uses.

The status is 0 where the program is built, 111 where a crate is not proved, the system refuses something, or another one runs in this
checkout, and 130 after Ctrl-C. No process of it is left afterwards.
"""
import fcntl, hashlib, os, shutil, signal, subprocess, sys, time

# Seconds of processor that a check takes, by which the next crate is chosen and what is left is reckoned.
SECONDS = {
    "s6_events": 60, "control_letters": 20, "servicedir": 50, "death_tally": 30, "svc_commands": 170, "finish_core": 10, "supervise_core": 105,
    "deadlines": 35, "text_matcher": 45, "svscan_core": 210, "event_directory": 300, "wait_conditions": 185, "tree_core": 230,
    "s6_script": 215, "s6_replay": 320, "run_stories": 260, "day_times": 15, "replay_tool": 60, "channel_names": 5, "inbox": 45,
    "order_lanes": 70, "error_notes": 50, "child_runner": 345, "line_server": 115, "status_board": 60, "tool_lines": 230, "s6_tools": 180, "step_codes": 90, "run_records": 110,
    "run_history": 90, "locked_services": 235, "office": 290, "scan_directory": 80, "server_rules": 280, "svcheck": 40, "server_threads": 140,
    "client_desk": 90, "run_recorder": 75, "tree_driver": 300, "tree_server": 200, "tree_front": 200, "s6_tree": 240,
}
USUAL_SECONDS = 60
# The memory that a check may want, in kilobytes.
CHECK_MEMORY = 4_500_000
LANES, LOGS = "out/lanes", "out/logs"
FAILED, INTERRUPTED = 111, 130


def read_uses():
    """The crates of crates.txt, and which of them each uses."""
    lines = [line.split("#")[0].partition(":") for line in open("crates.txt")]
    words = {name.split()[0]: rest.split() for name, colon, rest in lines if colon}
    return {name: [used for used in rest if used in words] for name, rest in words.items()}


def below(program, uses):
    """The program and all that it stands on."""
    found, to_look_at = set(), [program]
    while to_look_at:
        name = to_look_at.pop()
        if name not in found:
            found.add(name)
            to_look_at += uses[name]
    return found


def files_of(name):
    """The files of a crate that a check reads."""
    for folder, folders, files in os.walk(os.path.join("crates", name)):
        folders[:] = sorted(it for it in folders if it not in ("out", "must-fail", "wrong-bodies", "data"))
        yield from (os.path.join(folder, it) for it in sorted(files))


def usable_processors():
    """How many checks may run at the same time: one for each processor, where each finds memory."""
    words = dict(line.split()[:2] for line in open("/proc/meminfo"))
    return max(1, min(len(os.sched_getaffinity(0)), int(words["MemAvailable:"]) // CHECK_MEMORY))


class Lane:
    """A copy of the sources, in which one check runs at a time."""

    def __init__(self, number, names):
        self.place = os.path.join(LANES, str(number))
        self.lacks = set(names)
        for name in names:
            for file in files_of(name):
                copy = os.path.join(self.place, file)
                os.makedirs(os.path.dirname(copy), exist_ok=True)
                shutil.copyfile(file, copy)
        shutil.copyfile("HANDLES", os.path.join(self.place, "HANDLES"))
        with open(os.path.join(self.place, "crates.txt"), "w") as file:
            file.writelines(line for line in open("crates.txt") if line.split(":")[0].split(" ")[0] in names)

    def take(self, names):
        """Links what was proved of these crates into the copy."""
        for name in self.lacks.intersection(names):
            link_library(".", self.place, name)
            self.lacks.remove(name)


def library_of(place, name):
    return os.path.join(place, "crates", name, "out", "rlib")


def link_library(here, there, name):
    shutil.rmtree(library_of(there, name), ignore_errors=True)
    shutil.copytree(library_of(here, name), library_of(there, name), copy_function=os.link)


class Check:
    """A crate that is being proved in a lane."""

    def __init__(self, name, lane, jobs):
        self.name, self.lane, self.jobs, self.begun = name, lane, jobs, time.monotonic()
        with open(log_of(name), "wb") as log:
            how = dict(stdout=log, stderr=log, stdin=subprocess.DEVNULL, start_new_session=True)
            self.process = subprocess.Popen(["rt", "lib", "--jobs", str(jobs)], cwd=os.path.join(lane.place, "crates", name), **how)


def log_of(name):
    return os.path.join(LOGS, name + ".log")


class Plan:
    """What is proved, what is left, and how long that takes."""

    def __init__(self, program):
        uses = read_uses()
        if program not in uses:
            raise FileNotFoundError("no crate %s in crates.txt" % program)
        names = below(program, uses)
        self.program = program
        self.processors = usable_processors()
        self.uses = {name: uses[name] for name in names}
        self.sums, self.ways = {}, {}
        kit = subprocess.run(["rt", "version"], capture_output=True).stdout
        for name in names:
            self.add_sum(name, kit)
            self.add_way(name)
        self.done = {name for name in names if name != program and self.is_kept(name)}
        self.begun = time.monotonic()
        self.seconds_at_first = self.seconds_left()

    def add_sum(self, name, kit):
        """Works out a sum of all that a crate's library is made of."""
        if name not in self.sums:
            text = hashlib.sha256(kit + name.encode())
            for file in files_of(name):
                text.update(file.encode() + open(file, "rb").read())
            for used in self.uses[name]:
                self.add_sum(used, kit)
                text.update(self.sums[used].encode())
            self.sums[name] = text.hexdigest()

    def add_way(self, name):
        """Works out the seconds from the begin of a crate to the program, if each waits only for those that it uses."""
        if name not in self.ways:
            above = [it for it in self.uses if name in self.uses[it]]
            for it in above:
                self.add_way(it)
            self.ways[name] = SECONDS.get(name, USUAL_SECONDS) + max([self.ways[it] for it in above], default=0)

    def way_left(self, check):
        """The seconds from now to the program, by way of a crate that is being proved."""
        spent = time.monotonic() - check.begun
        return self.ways[check.name] - min(spent, SECONDS.get(check.name, USUAL_SECONDS))

    def sum_file(self, name):
        return os.path.join(library_of(".", name), "proved")

    def is_kept(self, name):
        try:
            return open(self.sum_file(name)).read() == self.sums[name]
        except OSError:
            return False

    def keep(self, check):
        """Takes a crate over that was proved in a lane."""
        link_library(check.lane.place, ".", check.name)
        with open(self.sum_file(check.name), "w") as file:
            file.write(self.sums[check.name])
        self.done.add(check.name)

    def is_proved(self):
        return len(self.done) == len(self.uses) - 1

    def all_below(self, name):
        return below(name, self.uses) - {name}

    def ready(self, running):
        """The crates that can be begun, the one with the longest way first."""
        left = [it for it in self.uses if it != self.program and it not in self.done and it not in running]
        return sorted((it for it in left if self.done.issuperset(self.uses[it])), key=self.ways.get, reverse=True)

    def seconds_left(self):
        left = [it for it in self.uses if it not in self.done]
        work = sum(SECONDS.get(it, USUAL_SECONDS) for it in left) / self.processors
        return max(work, max(self.ways[it] for it in left))

    def tell(self, name):
        """One line for a crate that is done."""
        spent, left = time.monotonic() - self.begun, self.seconds_left()
        passed = self.seconds_at_first - left
        # The table's seconds are those of another machine.
        pace = min(3.0, spent / passed) if passed > 60 else 1.0
        print("[%2d/%d] %-16s %2d min, about %d left" % (len(self.done), len(self.uses), name, round(spent / 60), round(left * pace / 60)),
              file=sys.stderr, flush=True)


def busy(running):
    """How many processors are in use."""
    return sum(check.jobs for check in running.values())


def jobs_for(plan, name, others, running):
    """How many processors the crate gets: all where it is alone, else one. Of more than two, the one that all wait for gets what the others leave, and two
    at least, also where none is free: two jobs take a third more than one. 0: it waits."""
    free = plan.processors - busy(running)
    if plan.processors > 2 and all(plan.ways[name] >= plan.way_left(check) for check in running.values()):
        return max(2, free - others) if free > -2 else 0
    return max(0, min(1, free) if others or running else free)


def begin_checks(plan, running, lanes):
    """Begins what can be begun, the crate with the longest way first."""
    ready = plan.ready(running)
    for place, name in enumerate(ready[:len(lanes)]):
        jobs = jobs_for(plan, name, len(ready) - place - 1, running)
        if jobs:
            lane = lanes.pop()
            lane.take(plan.all_below(name))
            running[name] = Check(name, lane, jobs)


def end_checks(plan, running, lanes):
    """Takes over what has ended. The name of a crate that is not proved, if there is one."""
    for name, check in list(running.items()):
        status = check.process.poll()
        if status is None:
            continue
        del running[name]
        lanes.append(check.lane)
        if status:
            return name
        plan.keep(check)
        plan.tell(name)
    return None


def stop_all(running):
    """Ends all checks, and waits for them."""
    for check in running.values():
        os.killpg(check.process.pid, signal.SIGKILL)
    for check in running.values():
        check.process.wait()


def refuse(name):
    """Shows the end of a crate's log."""
    with open(log_of(name), errors="replace") as log:
        sys.stderr.writelines(log.readlines()[-30:])
    print("prove: %s is not proved: %s" % (name, log_of(name)), file=sys.stderr)
    return FAILED


def prove_libraries(plan):
    """Proves all that the program stands on. The status."""
    shutil.rmtree(LANES, ignore_errors=True)
    lanes = [Lane(number, plan.uses) for number in range(plan.processors + 1)]
    running = {}
    try:
        while not plan.is_proved():
            begin_checks(plan, running, lanes)
            time.sleep(0.2)
            failed = end_checks(plan, running, lanes)
            if failed:
                return refuse(failed)
    finally:
        stop_all(running)
        shutil.rmtree(LANES, ignore_errors=True)
    return 0


def build_program(plan):
    """Proves the program itself, and builds it in this checkout. The status."""
    with open(log_of(plan.program), "wb") as log:
        how = dict(stdout=log, stderr=log, stdin=subprocess.DEVNULL, start_new_session=True)
        rt = subprocess.Popen(["rt", "run", "--jobs", str(plan.processors), "--", "--version"], cwd=os.path.join("crates", plan.program), **how)
        try:
            status = rt.wait()
        finally:
            if rt.poll() is None:
                os.killpg(rt.pid, signal.SIGKILL)
                rt.wait()
    return refuse(plan.program) if status else 0


def prove_and_build(program):
    """Proves what is not proved yet, and builds the program. The status."""
    plan = Plan(program)
    if not plan.is_proved():
        print("prove: %s and what it stands on; what rt prints is in %s" % (program, LOGS), file=sys.stderr)
        status = prove_libraries(plan)
        if status:
            return status
    return build_program(plan)


def lock_logs():
    """Keeps others out of this checkout until the process ends. Whether nobody else was in it."""
    os.makedirs(LOGS, exist_ok=True)
    try:
        fcntl.flock(os.open(LOGS, os.O_RDONLY), fcntl.LOCK_EX | fcntl.LOCK_NB)
    except BlockingIOError:
        return False
    return True


def main():
    if len(sys.argv) != 2:
        sys.exit(__doc__)
    os.chdir(os.path.join(os.path.dirname(os.path.abspath(__file__)), ".."))
    for number in (signal.SIGTERM, signal.SIGHUP):
        signal.signal(number, signal.default_int_handler)
    try:
        if lock_logs():
            return prove_and_build(sys.argv[1])
        print("prove: another one runs in this checkout", file=sys.stderr)
    except OSError as error:
        print("prove: %s" % error, file=sys.stderr)
    except KeyboardInterrupt:
        return INTERRUPTED
    return FAILED


sys.exit(main())
