"""Journals that differ from right ones, as bytes: cut, one byte changed to each value, and entries left out, doubled, swapped, changed."""
import hashlib
from journal import Record, area, ending, entry, flooring, opening, settling

NOW = 1700000000


def digest_of(number):
    return hashlib.sha256(b"%d" % number).digest()


def record(number, **others):
    fields = dict(number=number, digest=digest_of(number), stamp=NOW + number % 64, moment=NOW, due=NOW + 30, address="10.0.0.7", pair="tcp/22", close=(b"/c", b"x"))
    return opening(Record(**{**fields, **others}))


# of the first kind is what the daemon has written from the beginning on: a settled record and a live one; of the second a list that begins
# anew, with a floor, what is kept of a record, a live record and a settled one
ENTRIES = {
    "a journal from its beginning on": (record(1), ending(1), record(2)),
    "a journal that begins with a floor": (flooring(NOW, 4), settling(3, NOW + 3, digest_of(3)), record(4), record(5, pair="udp/53"), ending(4)),
}
JOURNALS = {name: area(*it) for name, it in ENTRIES.items()}


def served(door):
    """The entries of a journal over which a daemon serves: a floor, what is kept of a record, a settled one, and three live ones, the second
    of which is due before the first and the third long after both."""
    def numbered(number, **others):
        return record(number, close=(door, b"close", b"%d" % number), **others)

    return (flooring(NOW, 4), settling(3, NOW + 3, digest_of(3)), numbered(4), numbered(5), ending(5), numbered(6, due=NOW + 20),
            numbered(7, due=NOW + 10**10))


def heads():
    """Head, empty, with each byte and with a second one behind some; over each two files of a right journal, an empty, a damaged and no one."""
    right, other = JOURNALS.values()
    files = ((right, other), (other, right), (right, b"\x03\xff\xff"), (b"\x03\xff\xff", right), (b"", other), (other, b""))
    contents = [b"", *(bytes([it]) for it in range(256)), *(bytes([it, behind]) for it in (0, 1, 2, 255) for behind in (0, 1, 255))]
    return [(head, *two) for head in contents for two in files]


def cuts(data):
    return [data[:at] for at in range(len(data))]


def each_byte(data):
    return [data[:at] + bytes([it]) + data[at + 1:] for at, there in enumerate(data) for it in range(256) if it != there]


def spare():
    """Entries that may stand beside those of a journal or not, by what stands before them."""
    yield from (ending(it) for it in range(7))
    yield from (record(it) for it in range(8))
    yield from (settling(it, NOW, digest_of(it)) for it in range(8))
    yield from (flooring(floor, free) for floor in (0, NOW, 2**64 - 1) for free in (0, 1, 4, 5, 7, 2**63, 2**63 + 1))
    yield from (settling(6, stamp, digest_of(6)) for stamp in (0, 1000031535999, 1000031536000, 2**64 - 1))
    yield from (record(6, stamp=it) for it in (0, 1000031535999, 1000031536000))
    yield from (record(6, moment=it) for it in (0, 999999999999, 1000000000000))
    yield from (record(6, close=it) for it in ((), (b"",), (b"x" * 12000,), (b"x" * 12001,), (b"x",) * 32, (b"x",) * 33, (b"\x20",), (b"\x7e",), (b"\x7f",)))
    yield record(6, pair="tcp/0")
    yield record(6, digest=digest_of(3))
    yield settling(2**63, NOW, digest_of(6))
    yield record(2**64 - 1)
    yield from (entry(kind, payload) for kind in (0, 1, 2, 3, 4, 5, 255) for payload in (b"", bytes(7), bytes(8), bytes(15), bytes(16), bytes(47), bytes(48), bytes(49), bytes(72)))
    yield b"\x01\xff\xff\xff\xff\x01"
    yield b"\x01\x7f\xff\xff\xff\x02"


def rearranged(entries):
    """Each entry left out, doubled at each place and put at each place; each spare one at each place and in the place of each."""
    for at, it in enumerate(entries):
        rest = entries[:at] + entries[at + 1:]
        yield area(*rest)
        for to in range(len(entries) + 1):
            yield area(*entries[:to], it, *entries[to:])
            yield area(*rest[:to], it, *rest[to:])
    for it in spare():
        for at in range(len(entries) + 1):
            yield area(*entries[:at], it, *entries[at:])
            yield area(*entries[:at], it, *entries[at + 1:])
    for form in range(256):
        yield bytes([form]) + area(*entries)[1:]
    whole = area(*entries)
    yield from (whole[:-1] + bytes([gate]) + tail for gate in range(256) for tail in (b"", b"\xff" * 40))
