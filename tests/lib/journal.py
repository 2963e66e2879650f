"""The journal in Python, from the page docs/journal.md alone: a writer, a reader, and what `fwknopd --fw-list` and `fko journal` print."""
import dataclasses

FORMAT = 2
# the format before it, in which a record has no stamp
OLDER = 1
YEAR = 31536000
GREATEST_MOMENT = 999999999999
GREATEST_STAMP = 1000031535999
GREATEST_NEXT = 2**63
PROTOCOLS = {6: "tcp", 17: "udp"}


class Damaged(Exception):
    """The bytes are damaged at this place, the one argument."""


@dataclasses.dataclass(frozen=True)
class Record:
    number: int
    # the SHA-256 of the datagram
    digest: bytes
    # the second at which the packet says that it was made
    stamp: int
    moment: int
    due: int
    address: str
    # as tcp/22
    pair: str
    close: tuple

    def shown(self):
        return (f"open {self.number} {self.digest.hex()} {self.stamp} {self.moment} {self.due} {self.address} {self.pair} ".encode()
                + b" ".join(self.close))


@dataclasses.dataclass(frozen=True)
class Done:
    number: int

    def shown(self):
        return f"done {self.number}".encode()


@dataclasses.dataclass(frozen=True)
class Settled:
    number: int
    stamp: int
    digest: bytes

    def shown(self):
        return f"settled {self.number} {self.digest.hex()} {self.stamp}".encode()


@dataclasses.dataclass(frozen=True)
class Floor:
    floor: int
    # the number of the next record
    next: int

    def shown(self):
        return f"floor {self.floor} {self.next}".encode()


# --- the writer


def entry(kind, payload):
    """A gate, and the entry behind it."""
    return b"\x01" + len(payload).to_bytes(4, "big") + bytes([kind]) + payload


def long(number):
    return number.to_bytes(8, "big")


def opening(record):
    proto, port = record.pair.split("/")
    payload = long(record.number) + record.digest + long(record.stamp) + long(record.moment) + long(record.due)
    payload += bytes(map(int, record.address.split(".")))
    payload += bytes([{name: byte for byte, name in PROTOCOLS.items()}[proto]]) + int(port).to_bytes(2, "big")
    payload += bytes([len(record.close)]) + b"".join(len(it).to_bytes(2, "big") + it for it in record.close)
    return entry(1, payload)


def ending(number):
    return entry(2, long(number))


def settling(number, stamp, digest):
    return entry(3, long(number) + long(stamp) + digest)


def flooring(floor, next_number):
    return entry(4, long(floor) + long(next_number))


def area(*entries):
    """The bytes of a journal with these entries."""
    return bytes([FORMAT]) + b"".join(entries) + b"\x00"


def older_opening(record):
    """The entry of a record in the older format."""
    payload = opening(record)[6:]
    return entry(1, payload[:40] + payload[48:])


def older_settling(number, moment, digest):
    return entry(3, long(number) + long(moment) + digest)


def older_area(*entries):
    """The bytes of a journal of the older format with these entries."""
    return bytes([OLDER]) + b"".join(entries) + b"\x00"


# --- the reader


def entries(data):
    """The place, kind and payload of each entry."""
    if len(data) < 3:
        return []
    if data[0] not in (FORMAT, OLDER):
        raise Damaged(0)
    found, at = [], 1
    while data[at] == 1:
        size = int.from_bytes(data[at + 1:at + 5], "big")
        after = at + 6 + size
        if after >= len(data) or data[at + 5] not in READERS:
            raise Damaged(at)
        found.append((at, data[at + 5], data[at + 6:after]))
        at = after
    return found


def opened(payload):
    """The record of a payload, or None where it is out of format."""
    if len(payload) < 72 or payload[68] not in PROTOCOLS or not 1 <= payload[71] <= 32:
        return None
    stamp, moment, due, port = (int.from_bytes(payload[low:high], "big") for low, high in ((40, 48), (48, 56), (56, 64), (69, 71)))
    if stamp > GREATEST_STAMP or moment > GREATEST_MOMENT or port == 0:
        return None
    words, at = [], 72
    for _ in range(payload[71]):
        size = int.from_bytes(payload[at:at + 2], "big")
        word = payload[at + 2:at + 2 + size]
        if at + 2 > len(payload) or len(word) < size or size == 0 or not all(0x21 <= it <= 0x7e for it in word):
            return None
        words.append(word)
        at += 2 + size
    if at != len(payload) or sum(map(len, words)) > 12000:
        return None
    address = ".".join(map(str, payload[64:68]))
    number, digest, pair = int.from_bytes(payload[:8], "big"), payload[8:40], f"{PROTOCOLS[payload[68]]}/{port}"
    return Record(number, digest, stamp, moment, due, address, pair, tuple(words))


def ended(payload):
    return Done(int.from_bytes(payload, "big")) if len(payload) == 8 else None


def settled(payload):
    number, stamp, digest = int.from_bytes(payload[:8], "big"), int.from_bytes(payload[8:16], "big"), payload[16:]
    return Settled(number, stamp, digest) if len(payload) == 48 and stamp <= GREATEST_STAMP else None


def floored(payload):
    floor, number = int.from_bytes(payload[:8], "big"), int.from_bytes(payload[8:], "big")
    return Floor(floor, number) if len(payload) == 16 and 1 <= number <= GREATEST_NEXT else None


READERS = {1: opened, 2: ended, 3: settled, 4: floored}


def stamped(kind, payload):
    """The payload of today's format that says what one of the older format says, or None: a record's stamp is a year past its moment."""
    at, out = {1: (40, 0), 3: (8, 8)}.get(kind, (0, 0))
    if kind not in (1, 3):
        return payload if kind == 2 else None
    moment = payload[at:at + 8]
    if len(moment) < 8:
        return None
    stamp = min(int.from_bytes(moment, "big") + YEAR, 2**64 - 1)
    return payload[:at] + long(stamp) + payload[at + out:]


def change_of(older, kind, payload):
    """The change that an entry says, or None."""
    if older:
        payload = stamped(kind, payload)
    return None if payload is None else READERS[kind](payload)


class Ledger:
    """The changes so far, with what the rules on the next one ask for."""

    def __init__(self):
        self.changes, self.made, self.live, self.digests = [], {}, set(), set()
        self.floor, self.free, self.last = 0, 1, None

    def next(self):
        return self.free if self.last is None else max(self.free, self.last + 1)

    def may_number(self, number):
        """Above those before it; and from the first that was free none is left out."""
        return (self.last is None or number > self.last) and (number < self.free or number == self.next())

    def takes(self, change):
        """Adds the change, or answers False where it may not stand there."""
        if isinstance(change, Done):
            if change.number not in self.live:
                return False
            self.live.remove(change.number)
        elif isinstance(change, Floor):
            if self.changes:
                return False
            self.floor, self.free = change.floor, change.next
        else:
            if not self.may_number(change.number) or change.digest in self.digests:
                return False
            self.last = change.number
            self.digests.add(change.digest)
            if isinstance(change, Record):
                self.made[change.number] = change
                self.live.add(change.number)
        self.changes.append(change)
        return True


def ledger(data):
    """The ledger that the bytes hold."""
    found = Ledger()
    for at, kind, payload in entries(data):
        change = change_of(data[0] == OLDER, kind, payload)
        if change is None or not found.takes(change):
            raise Damaged(at)
    return found


def records(data):
    """Each record that stands there whole, by its number, and the numbers of those that are live."""
    found = ledger(data)
    return found.made, found.live


def selected(head, one, two):
    """Which of the two files counts, by the first byte of the third."""
    return two if head[:1] and head[0] % 2 == 1 else one


def answered(data, rows_of):
    """The rows of the ledger that these bytes hold, or the fault's line, and the status."""
    try:
        found = ledger(data)
    except Damaged as damaged:
        return f"damaged {damaged.args[0]}\n".encode(), 7
    return b"".join(row + b"\n" for row in rows_of(found)), 0


def listed(found):
    for number in sorted(found.live):
        it = found.made[number]
        yield f"{number} {it.moment} {it.due} {it.address} {it.pair} ".encode() + b" ".join(it.close)


def listing(data):
    """What `fwknopd --fw-list` prints over these bytes, and its status."""
    return answered(data, listed)


def shown(data):
    """What `fko journal` prints over these bytes, and its status."""
    return answered(data, lambda found: [it.shown() for it in found.changes])
