#!/usr/bin/env python3
"""A client of svscan, by the lines of docs/PROTOCOL.md:  client.py SOCKET wait NAME MS  |  client.py SOCKET follow [NAME]

Where the tree is busy, or the connection ends, it asks again on a new one after growing pauses, for ten seconds. Status 111 if that was in vain.
"""
import collections, socket, sys, time


class Tree:
    def __init__(self, path, patience=10):
        self.path, self.patience, self.socket = path, patience, None

    def connect(self):
        self.socket = socket.socket(socket.AF_UNIX)
        self.lines = self.socket.makefile("r", encoding="ascii", newline="\n")
        self.socket.connect(self.path)
        self.news = collections.deque()  # r, m and e lines that came before they were asked for

    def close(self):
        """What was asked for on the connection ends with it: waiters, subscriptions, and what it follows."""
        if self.socket:
            self.lines.close()
            self.socket.close()
        self.socket = None

    def message(self):
        """The lines up to the next empty one; `busy` has none behind it."""
        lines = []
        while (line := self.lines.readline()).endswith("\n"):
            if line == "\n":
                return lines
            if line == "busy\n":
                raise ConnectionError("busy: eleven clients are connected")
            lines.append(line.rstrip("\n"))
        raise ConnectionError("the tree ended, or closed the connection")

    def ask(self, request):
        """The reply to a request: its lines. What isn't a reply is kept for `next_news`."""
        self.socket.sendall(request.encode("ascii") + b"\n")
        while (lines := self.message()) and lines[0][:2] in ("r ", "m ", "e "):
            self.news.append(lines[0])
        if lines == ["refused Busy"]:
            raise ConnectionError("busy: no place for one more that waits or follows")
        if lines and lines[0].startswith("refused "):
            raise ValueError(f"{request}: {lines[0]}")
        return lines

    def ask_again(self, *requests):
        """The replies to requests on one connection. Only for those that may be done twice: where no reply came, one may have been done."""
        end, pause = time.monotonic() + self.patience, 0.02
        while True:
            try:
                if not self.socket:
                    self.connect()
                return [self.ask(request) for request in requests]
            except OSError:
                self.close()
                if time.monotonic() + pause > end:
                    raise
            time.sleep(pause)
            pause = min(2 * pause, 0.5)

    def next_news(self):
        """The next line that is no reply, or None where the connection ended."""
        try:
            return self.news.popleft() if self.news else self.message()[0]
        except OSError:
            self.close()

    def wait(self, condition, milliseconds, *names):
        """held, failed, gone or timedout. Conditions: u up, U ready, d down, D down with its finish done. 0 milliseconds are for ever."""
        end = time.monotonic() + milliseconds / 1000
        while True:
            left = max(1, round((end - time.monotonic()) * 1000)) if milliseconds else 0
            _, serial = self.ask_again(f"wait {condition} a {left} {' '.join(names)}")[0][0].split()
            while news := self.next_news():
                if news.startswith(f"r {serial} "):
                    return news.split()[2]

    def follow(self, *names):
        """For each letter the time of day, the name and the letter. Where the connection ended, those of the time in between are missing."""
        while True:
            clock, _ = self.ask_again("clock", " ".join(["follow", *names]))
            start = int(clock[0].split()[1])
            while news := self.next_news():
                _, at, _, name, letter = news.split()
                yield (start + int(at)) / 1000, name, letter


def main(path, tool, *words):
    tree = Tree(path)
    if tool == "wait":
        name, milliseconds = words
        verdict = tree.wait("U", int(milliseconds), name)
        print(verdict)
        return int(verdict != "held")
    for letter in tree.follow(*words):
        print(*letter, flush=True)


if __name__ == "__main__":
    try:
        sys.exit(main(*sys.argv[1:]))
    except OSError as error:
        sys.exit(print(f"client.py: {error}", file=sys.stderr) or 111)
    except ValueError as error:
        sys.exit(f"client.py: {error}")
