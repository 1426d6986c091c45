#!/usr/bin/env python3
"""Asks a running tree, on one connection, one request after the other, across a handover.

    requests.py PROGRAM [REQUEST [RECORD]]

PROGRAM is s6_tree. REQUEST is asked 300,000 times (`tally other`). Meanwhile another connection kills twenty services in turn, 189 times, and
follows all letters; the first one has a subscription to the deaths of one of them, and four waiters for the end of `waited`. Printed are how many
replies were wrong, how many deaths, matches and releases came, requests a second, and the median and the longest answers. With RECORD the
runs are recorded there. All folders are temporary."""
import os, shutil, socket, statistics, subprocess, sys, tempfile, threading, time

sys.dont_write_bytecode = True
from beside_s6 import services

REQUESTS, KILLS, WAITERS = 300_000, 189, 4
KILLED = ["killed%02d" % number for number in range(20)]


class Connection:
    def __init__(self, path):
        self.socket = socket.socket(socket.AF_UNIX)
        self.socket.connect(path)
        self.rest = b""
        self.news = []

    def message(self):
        while b"\n\n" not in self.rest:
            read = self.socket.recv(65536)
            if not read:
                raise ConnectionError("the tree ended, or closed the connection")
            self.rest += read
        message, _, self.rest = self.rest.partition(b"\n\n")
        return message.decode()

    def ask(self, request):
        """The reply; the news that came before it are kept."""
        self.socket.sendall(request.encode() + b"\n")
        while (message := self.message())[:2] in ("r ", "m ", "e "):
            self.news.append(message)
        return message


def kill(path, kills, deaths):
    """Kills the services in turn, each two seconds after the last time, so that it is up. The services that died, as they are told."""
    connection = Connection(path)
    kills.append(connection.ask("follow"))
    for number in range(KILLS):
        kills.append(connection.ask("svc %s k" % KILLED[number % len(KILLED)]))
        time.sleep(0.1)
    time.sleep(1)
    connection.ask("clock")
    deaths += [line.split()[3] for news in connection.news for line in news.splitlines() if line.endswith(" d")]


def main(program, request="tally other", record=None):
    folder = tempfile.mkdtemp()
    place, path, errors = (os.path.join(folder, name) for name in ("services", "socket", "errors"))
    os.mkdir(place)
    services(place, [*KILLED, "waited", "other"])
    server = subprocess.Popen([program, "svscan", place, path] + [record] * bool(record), stderr=open(errors, "wb"))
    while not os.path.exists(path):
        time.sleep(0.01)
    for names in (KILLED[:10], [*KILLED[10:], "waited", "other"]):
        subprocess.run([program, "svwait", path, "-U", *names], check=True)
    time.sleep(1)
    connection, kills, deaths, times, wrong = Connection(path), [], [], [], 0
    assert connection.ask("subscribe svc %s repeat d" % KILLED[0]).startswith("sub ")
    assert all(connection.ask("wait d o 0 waited").startswith("wait ") for _ in range(WAITERS))
    wanted = connection.ask(request)
    killer = threading.Thread(target=kill, args=(path, kills, deaths))
    killer.start()
    for _ in range(REQUESTS):
        begun = time.perf_counter()
        wrong += connection.ask(request) != wanted
        times.append(time.perf_counter() - begun)
    killer.join()
    time.sleep(2)
    assert connection.ask("svc waited d") == "done"
    time.sleep(1)
    connection.ask("clock")
    handovers = open(errors).read().count("handover")
    subprocess.run([program, "svscanctl", path, "-t"], check=True)
    server.wait()
    shutil.rmtree(folder)
    matches = sum(news.count("m ") for news in connection.news)
    releases = sum(news.startswith("r ") for news in connection.news)
    times.sort(reverse=True)
    print("%d replies, %d wrong; %d kills, %d refused, %d deaths; %d matches of %d; %d releases of %d; %d handovers" % (
        REQUESTS, wrong, KILLS, sum(reply != "done" for reply in kills), len(deaths), matches, deaths.count(KILLED[0]), releases, WAITERS, handovers))
    print("%.0f a second; the median %.3f ms; the longest %s ms" % (
        REQUESTS / sum(times), statistics.median(times) * 1000, ", ".join("%.1f" % (t * 1000) for t in times[:5])))


if __name__ == "__main__":
    main(*sys.argv[1:])
