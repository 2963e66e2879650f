"""Who is let in, and what a trial prints, in Python, from the pages docs/admission.md, docs/configuration.md and docs/log.md alone."""
import base64, dataclasses, hashlib, ipaddress, re
from packet import Keys, opened, shape_fault


@dataclasses.dataclass(frozen=True)
class Stanza:
    keys: Keys = Keys()
    # the pairs of keys in the order of the file, each with its last moment or none; without any it has `keys` alone
    ring: tuple = ()
    # nets; none of them means ANY
    sources: tuple = ()
    allowed: tuple | None = None
    barred: tuple = ()
    user: bytes | None = None
    needs_address: bool = False
    expires: int | None = None
    timer: int = 30
    opening: str = "/bin/o $IP $PROTO/$PORT"
    closing: str = "/bin/c $IP"


def pairs_of(stanza):
    """The stanza's pairs of keys, each with its last moment or none."""
    return stanza.ring or ((stanza.keys, None),)


def written_keys(stanza):
    """The lines of its keys."""
    lines = []
    for keys, until in pairs_of(stanza):
        lines.append("KEY_BASE64 " + base64.b64encode(keys.key).decode())
        lines.append("HMAC_KEY_BASE64 " + base64.b64encode(keys.mac_key).decode())
        lines.append("HMAC_DIGEST_TYPE " + keys.kind)
        if until is not None:
            lines.append(f"KEYS_UNTIL {until}")
    return lines


def written(stanza):
    """The stanza's lines in an access file."""
    lines = [
        "SOURCE " + (", ".join(stanza.sources) or "ANY"),
        *written_keys(stanza),
        f"CMD_CYCLE_TIMER {stanza.timer}",
        "CMD_CYCLE_OPEN " + stanza.opening,
        "CMD_CYCLE_CLOSE " + stanza.closing,
    ]
    if stanza.allowed is not None:
        lines.append("OPEN_PORTS " + ", ".join(stanza.allowed))
    if stanza.barred:
        lines.append("RESTRICT_PORTS " + ", ".join(stanza.barred))
    if stanza.user is not None:
        lines.append("REQUIRE_USERNAME " + stanza.user.decode())
    if stanza.needs_address:
        lines.append("REQUIRE_SOURCE_ADDRESS Y")
    if stanza.expires is not None:
        lines.append(f"ACCESS_EXPIRE_EPOCH {stanza.expires}")
    return "".join(it + "\n" for it in lines)


def has_source(stanza, source):
    return not stanza.sources or any(ipaddress.ip_address(source) in ipaddress.ip_network(it, strict=False) for it in stanza.sources)


def picked(stanza, moment, datagram):
    """The fields under the first pair in use that opens the datagram and no refusal, or no fields and the refusal."""
    why = "mac"
    for keys, until in pairs_of(stanza):
        if until is not None and moment > until:
            continue
        fields, fault = opened(datagram, keys)
        if fault is None:
            return fields, None
        if fault.startswith("KindOut"):
            return None, "kind"
        if fault != "Mac" and why == "mac":
            why = "cipher" if fault == "Cipher" else "plain"
    return None, why


def tried(stanza, age, moment, source, datagram):
    """The fields that the stanza lets in and no refusal, or no fields and the refusal of the first condition that fails."""
    if not has_source(stanza, source):
        return None, "no-stanza"
    if stanza.expires is not None and moment > stanza.expires:
        return None, "expired"
    fields, refusal = picked(stanza, moment, datagram)
    if refusal is not None:
        return None, refusal
    if abs(moment - fields.stamp) > age:
        return None, "age"
    if stanza.user not in (None, fields.user):
        return None, "user"
    if stanza.needs_address and fields.address == "0.0.0.0":
        return None, "source"
    if any(it in stanza.barred or stanza.allowed is not None and it not in stanza.allowed for it in fields.pairs):
        return None, "port"
    return fields, None


@dataclasses.dataclass(frozen=True)
class Grant:
    # the stanza's number, from 1
    number: int
    stanza: Stanza
    address: str
    source: str
    pairs: tuple
    seconds: int
    stamp: int


def admitted(stanzas, age, moment, source, datagram):
    """The grant and no refusal, or no grant and the refusal."""
    why = None
    for number, stanza in enumerate(stanzas, 1):
        fields, refusal = tried(stanza, age, moment, source, datagram)
        if fields is not None:
            address = source if fields.address == "0.0.0.0" else fields.address
            return Grant(number, stanza, address, source, fields.pairs, fields.seconds or stanza.timer, fields.stamp), None
        if why is None and refusal != "no-stanza":
            why = refusal
    return None, why or "no-stanza"


def filled(template, grant):
    """The words of a command."""
    proto, port = grant.pairs[0].split("/")
    values = {"$IP": grant.address, "$SRC": grant.address, "$PKT_SRC": grant.source, "$PORT": port, "$PROTO": proto,
              "$TIMEOUT": str(grant.seconds), "$ACCESS": ",".join(grant.pairs)}
    return [re.sub("[$][A-Z_]*", lambda name: values[name.group()], word) for word in template.split()]


@dataclasses.dataclass
class Record:
    due: int
    close: list
    # how many bytes its entry takes
    size: int
    # the child whose end comes with the next turn: `open`, `close` or none
    runs: str | None = "open"


class Trial:
    """A trial over these stanzas: each child is found to have ended well at the next turn."""

    def __init__(self, stanzas, age=120, live=256, room=16777216, keep=86400):
        self.stanzas, self.age, self.most, self.room, self.keep = stanzas, age, live, room, max(keep, age)
        # what is seen are digests, each with the stamp and the number of its record
        self.used, self.floor, self.seen, self.live, self.children, self.made = 2, 0, {}, {}, [], 0
        self.counts = dict.fromkeys(("turns", "opens", "closes", "settled", "refused"), 0)

    def turn(self, moment, source=None, datagram=None):
        """The lines of one turn."""
        self.counts["turns"] += 1
        lines = self.ends()
        if datagram is not None:
            lines += self.answer(moment, source, datagram)
        for number, record in sorted(self.live.items(), key=lambda it: (it[1].due, it[0])):
            if record.runs is None and record.due <= moment:
                record.runs = "close"
                self.children.append(number)
                self.counts["closes"] += 1
                lines.append(f"close {number} {' '.join(record.close)}")
        return [f"{moment} {it}" for it in lines]

    def ends(self):
        lines, settled, children = [], [], self.children
        self.children = []
        for number in children:
            lines.append(f"ended {self.live[number].runs} {number} good")
            if self.live[number].runs == "close":
                settled.append(number)
            self.live[number].runs = None
        for number in settled:
            del self.live[number]
            self.used += 14
            self.counts["settled"] += 1
            lines.append(f"settled {number}")
        return lines

    def answer(self, moment, source, datagram):
        grant, why = self.decided(moment, source, datagram)
        if grant is not None:
            close = filled(grant.stanza.closing, grant)
            size = 6 + 72 + sum(2 + len(it) for it in close)
            if grant.stamp < self.floor:
                why = "stale"
            elif len(self.live) < self.most and self.has_room(moment, size + 14 * (len(self.live) + 1)):
                return self.opens(moment, grant, close, size, datagram)
            else:
                why = "full"
        self.counts["refused"] += 1
        return [f"from {source} refused {why}"]

    def has_room(self, moment, size):
        """Whether so many bytes have room behind what is used, or where the journal begins anew, which it then does."""
        if self.used + size <= self.room:
            return True
        floor = max(self.floor, moment - self.keep)
        kept = {of: (stamp, number) for of, (stamp, number) in self.seen.items() if number in self.live or stamp >= floor}
        used = 2 + 22 + sum(self.live[number].size if number in self.live else 54 for _, number in kept.values())
        if used + size > self.room:
            return False
        self.used, self.floor, self.seen = used, floor, kept
        return True

    def decided(self, moment, source, datagram):
        fault = shape_fault(datagram)
        if fault is not None:
            return None, fault
        if digest(datagram) in self.seen:
            return None, "replay"
        return admitted(self.stanzas, self.age, moment, source, datagram)

    def opens(self, moment, grant, close, size, datagram):
        self.made += 1
        self.used += size
        self.seen[digest(datagram)] = grant.stamp, self.made
        self.live[self.made] = Record(moment + grant.seconds, close, size)
        self.children.append(self.made)
        self.counts["opens"] += 1
        return [
            f"from {grant.source} granted {self.made} stanza {grant.number} until {moment + grant.seconds}",
            f"open {self.made} {' '.join(filled(grant.stanza.opening, grant))}",
        ]

    def output(self, turns):
        """All that a trial prints on these turns, each a moment or a moment with a source and a datagram."""
        lines = ["ready 0"]
        for it in turns:
            lines += self.turn(*it)
        summary = " ".join(f"{name} {count}" for name, count in self.counts.items())
        return "".join(it + "\n" for it in [*lines, f"summary {summary} live {len(self.live)}"])


def digest(datagram):
    return hashlib.sha256(datagram.encode()).digest()


def turn_line(moment, source=None, datagram=None):
    """The line of a trial's input for a turn."""
    return f"{moment}\n" if datagram is None else f"{moment} {source} {datagram}\n"
