"""A built daemon in a folder and on a port of its own, the datagrams that it is sent, and the children that it starts."""
import os, random, socket, subprocess, time

import journal

# the most that anything is waited for, in seconds; a busy machine may be slow
PATIENCE = 120


class Failure(Exception):
    """What a script has seen that may not be."""


# how long a run is begun anew where its port or its journal is not free yet, in seconds
PAUSE = 5


def free_port():
    """A port that nobody has, below those that the system hands out to sockets by itself."""
    while True:
        port = random.SystemRandom().randrange(10000, 32000)
        with socket.socket(socket.AF_INET, socket.SOCK_DGRAM) as it:
            try:
                it.bind(("0.0.0.0", port))
            except OSError:
                continue
            return port


def wait_until(holds, what):
    """Waits until `holds()` answers something that is true, and answers it."""
    end = time.monotonic() + PATIENCE
    while time.monotonic() < end:
        found = holds()
        if found:
            return found
        time.sleep(0.02)
    raise Failure(what() if callable(what) else what)


class Daemon:
    """Its folder has `conf`, `access`, the journal, a log for each run, and `doors`, to which the children write a line each: the
    number of their words and the words. The access file's commands name the child as DOOR."""

    def __init__(self, program, folder, access, door="#!/bin/sh\necho \"$# $*\" >>{doors}\n"):
        self.program, self.folder, self.port, self.runs, self.process = program, folder, free_port(), 0, None
        # how many of its starts found its port or its journal still taken
        self.refused = 0
        os.makedirs(folder)
        self.write("conf", f"UDPSERV_PORT {self.port}\n")
        self.write("access", access.replace("DOOR", self.path("door")))
        self.write("doors", "")
        self.write("door", door.format(doors=self.path("doors"), folder=folder))
        os.chmod(self.path("door"), 0o755)
        self.socket = socket.socket(socket.AF_INET, socket.SOCK_DGRAM)

    def __enter__(self):
        return self

    def __exit__(self, *_):
        self.kill()
        self.socket.close()

    def path(self, name):
        return os.path.join(self.folder, name)

    def write(self, name, content):
        with open(self.path(name), "w") as it:
            it.write(content)

    def read(self, name):
        with open(self.path(name)) as it:
            return it.read()

    def journal(self):
        """The bytes of the file that counts."""
        files = []
        for name in ("fwknopd.head", "fwknopd.one", "fwknopd.two"):
            try:
                with open(self.path(name), "rb") as it:
                    files.append(it.read())
            except FileNotFoundError:
                files.append(b"")
        return journal.selected(*files)

    def begin(self, *words):
        """Starts it with these further words, and waits until it says that it is ready.

        A daemon that was killed as it began a child may leave its port and its lock to that child, until that one has become another
        program. The children of these scripts end soon, but a lock that they kept would last longer than this waits."""
        end = time.monotonic() + PAUSE
        while self.runs and time.monotonic() < end:
            if self.begin_once(words) not in (["disk failed"], ["feed failed"]):
                return self.expect_ready()
            self.refused += 1
            time.sleep(0.05)
        self.begin_once(words)
        self.expect_ready()

    def begin_once(self, words):
        """Starts it, waits until it has said something, and answers what."""
        self.runs += 1
        words = [self.program, "-f", "-c", "conf", "-a", "access", *words]
        with open(self.path(f"log{self.runs}"), "w") as log, open(self.path(f"errors{self.runs}"), "w") as errors:
            self.process = subprocess.Popen(words, cwd=self.folder, stdin=subprocess.DEVNULL, stdout=log, stderr=errors)
        wait_until(lambda: self.process.poll() is not None or self.log(), "the daemon did not say that it is ready")
        return self.log()

    def expect_ready(self):
        if not self.log()[:1] or not self.log()[0].startswith("ready "):
            raise Failure(f"the daemon did not begin: {self.log()}, {self.read(f'errors{self.runs}')!r}")

    def log(self):
        """The whole lines that this run has written so far."""
        return self.read(f"log{self.runs}").split("\n")[:-1]

    def awaits(self, words, count=1):
        """Waits until so many lines of this run have these words in them."""
        def found():
            if self.process.poll() is not None and count > sum(words in it for it in self.log()):
                raise Failure(f"the daemon ended before the line '{words}': {self.log()[-5:]}")
            return sum(words in it for it in self.log()) >= count

        wait_until(found, lambda: f"no line '{words}' came; the last are {self.log()[-5:]}")

    def doors(self):
        return self.read("doors").splitlines()

    def send(self, datagram, address="127.0.0.1"):
        self.socket.sendto(datagram if isinstance(datagram, bytes) else datagram.encode(), (address, self.port))

    def ask(self, datagram, answer):
        """Sends a datagram, and waits until one line more with this answer has come."""
        before = sum(answer in it for it in self.log())
        self.send(datagram)
        self.awaits(answer, before + 1)

    def kill(self):
        """Ends the daemon at once, as `kill -9` does; the children that it started go on."""
        if self.process is not None:
            self.process.kill()
            self.process.wait()
            self.process = None

    def ended(self):
        """Waits until the daemon has ended, and answers its status."""
        wait_until(lambda: self.process.poll() is not None, lambda: f"the daemon did not end; its last lines are {self.log()[-5:]}")
        return self.process.returncode
