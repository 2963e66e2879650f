"""The crates of this repository: what crates.txt says of them, their sources, and what of them passed before."""
import functools, hashlib, os, re, subprocess

TOP = os.path.realpath(os.path.join(os.path.dirname(os.path.abspath(__file__)), "..", ".."))
# how many crates are built or tried side by side
JOBS = int(os.environ.get("JOBS") or max(1, (os.cpu_count() or 2) - 1))
# what beside its sources says how a program is run; a program that has one of them has a stored run
STORED = ("args", "stdin", "stdout", "status", "data")


def crates():
    """Each crate of crates.txt with those that it names."""
    with open(os.path.join(TOP, "crates.txt")) as it:
        rows = [line.split("#")[0].partition(":") for line in it]
    return {name.split()[0]: below.split() for name, colon, below in rows if colon}


def folder(name):
    return os.path.join(TOP, "crates", name)


def below(name, known):
    """The crate and all those of the repository below it."""
    found = {name}
    for it in known[name]:
        if it in known:
            found |= below(it, known)
    return found


def sources(name):
    """The crate's source files, in order."""
    return sorted(os.path.join(at, it) for at, _, names in os.walk(os.path.join(folder(name), "src")) for it in names if it.endswith(".rt"))


def has_tests(name):
    for path in sources(name):
        with open(path) as it:
            if re.search(r"^ *#\[test\]", it.read(), re.M):
                return True
    return False


def has_stored_run(name):
    is_program = os.path.exists(os.path.join(folder(name), "src", "main.rt"))
    return is_program and any(os.path.exists(os.path.join(folder(name), it)) for it in STORED)


@functools.lru_cache
def kit():
    """The kit's own word of what it is."""
    return subprocess.run(["rt", "version"], stdout=subprocess.PIPE, check=True).stdout


def stamp_of(name, known):
    """What an unproved build of the crate stands on, as one number."""
    found = hashlib.sha256(kit())
    for path in (path for it in sorted(below(name, known)) for path in sources(it)):
        with open(path, "rb") as it:
            found.update(os.path.relpath(path, TOP).encode() + b"\0" + it.read() + b"\0")
    return found.hexdigest()


def is_stamped(path, stamp):
    """Whether the file has this stamp."""
    try:
        with open(path) as it:
            return it.read() == stamp
    except FileNotFoundError:
        return False
