"""Datagrams that differ from right ones, most of them by one letter, and datagrams with a right HMAC over wrong insides."""
from packet import LENGTHS, LETTERS, PREFIX, Fields, Keys, all_sealed, authenticated, mac_text, packed, parts, sealed, text, with_digest

NOW = 1700000000
KEYS = Keys()
# what stands in a line of input, but in no datagram
OTHERS = "!=-_.~"


def right(kind="SHA256", salt=0, **fields):
    return packed(Fields(stamp=NOW, **fields), Keys(kind=kind), salt.to_bytes(8, "big"))


def each_letter(datagram):
    """Each place with each other letter, and with some bytes that are none."""
    return [datagram[:at] + it + datagram[at + 1:] for at, there in enumerate(datagram) for it in LETTERS + OTHERS if it != there]


def cuts(datagram):
    """Cut at each length from either end, and letters left out, doubled and put in."""
    places = range(1, len(datagram))
    found = [datagram[:at] for at in places] + [datagram[at:] for at in places]
    found += [datagram[:at] + it + datagram[at:] for at in (0, *places, len(datagram)) for it in "A/"]
    found += [datagram[:at] + datagram[at + 1:] for at in places] + [datagram[:at] + datagram[at - 1:] for at in places]
    return found + [PREFIX + datagram, datagram + datagram, (datagram * 8)[:1500], (datagram * 8)[:1501], "A" * 1500, "A" * 1501]


def spliced(one, two):
    """The front of one with the end of the other, cut at the same place and at others."""
    found = [first[:at] + second[at:] for first, second in ((one, two), (two, one)) for at in range(1, len(one))]
    return found + [first[:at] + second[-it:] for first, second in ((one, two), (two, one)) for at in range(100, len(one), 7) for it in (22, 27, 43, 64, 86, 100)]


def loose_ends():
    """Under each hash, the last letter of the HMAC with each other letter."""
    made = map(right, LENGTHS)
    return [datagram[:-1] + it for datagram in made for it in LETTERS]


def loose_bits():
    """Under a right HMAC, the sealed text with other letters at its end, of lengths whose last letter has two, four and no loose bits."""
    found = []
    for user in (b"b", b"b" * 12, b"b" * 24):
        whole = text(sealed(KEYS.key, bytes(8), with_digest(parts(Fields(stamp=NOW, user=user)), "SHA256").encode()))
        for letters in [whole[:-1] + it for it in LETTERS] + [whole + "A", whole[:-1], whole[:-2], whole + "AA"]:
            found.append(letters[10:] + mac_text(KEYS.kind, KEYS.mac_key, letters.encode()))
    return found


def wrong_insides():
    """Under a right HMAC: each byte of the sealed form changed in one bit, each cut of it, and another key's."""
    data = sealed(KEYS.key, bytes(8), with_digest(parts(Fields(stamp=NOW)), "SHA256").encode())
    changed = [data[:at] + bytes([it ^ 1 << at % 8]) + data[at + 1:] for at, it in enumerate(data)]
    changed += [data[:at] for at in range(100, len(data))] + [data + bytes(it) for it in range(1, 33)]
    changed += [sealed(b"another", bytes([it] * 8), with_digest(parts(Fields(stamp=NOW)), "SHA256").encode()) for it in range(8)]
    return [authenticated(it, KEYS) for it in changed]


def past_bounds():
    """Under right keys: each field at its bounds and one past them, with each hash's digest."""
    access, timed = parts(Fields(stamp=NOW)), parts(Fields(stamp=NOW, seconds=60))
    pair, rest = b",tcp/22", b"10.0.0.7"
    values = {
        0: ("0" * 15, "0" * 16, "0" * 17, "000000000000000/", "000000000000000:", ""),
        1: (text(b""), text(b"u"), text(b"u" * 64), text(b"u" * 65), *(text(bytes([it])) for it in (0x1f, 0x20, 0x7e, 0x7f, 0x80)), "YmA", "Ym9", "Ym9iQ", "Ym9i="),
        2: ("-1", "0", "00", "999999999999", "1000000000000", str(2**64 + NOW), f"0{NOW}", f"{NOW} ", f"{NOW - 121}", f"{NOW - 120}", f"{NOW + 120}", f"{NOW + 121}"),
        3: ("", "1", "1" * 16, "1" * 17, "..", "3.0.0/", "3,0"),
        4: ("", "0", "1", "2", "3", "4", "5", "6", "7", "/", "01", "11"),
        5: tuple(text(it) for it in (b"", rest, rest + b",", rest + pair, rest + pair * 16, rest + pair * 17, b"255.255.255.255" + pair, b"256.0.0.1" + pair,
            b"10.0.0" + pair, b"10.0.0.7.8" + pair, b"010.0.0.7" + pair, b"0.0.0.0" + pair, rest + b",tcp/1", rest + b",tcp/0", rest + b",tcp/65535",
            rest + b",tcp/65536", rest + b",udp/022", rest + b",icmp/1", rest + pair + b"\x00", rest + b", tcp/22")) + ("=", "MTA"),
    }
    plains = [":".join([*front[:at], value, *front[at + 1:]]) for at, some in values.items() for value in some for front in (access, timed)]
    plains += [":".join([*timed[:6], it]) for it in ("", "0", "1", "604800", "604801", "060", "-1", "60 ", str(2**64 + 60))]
    plains += [":".join([*front, *more]) for front in (access, timed) for more in ([""], ["60"], ["60", "60"])]
    plains += [":".join(front[:count]) for front in (access, timed) for count in range(1, len(front))]
    found = [with_digest([plain], kind) for plain in plains for kind in LENGTHS]
    for kind in LENGTHS:
        whole = with_digest(access, kind)
        found += [whole[:-1], whole + "A", whole[:-1] + ("A" if whole[-1] != "A" else "Q"), whole + ":", whole.rsplit(":", 1)[0], whole + "\n"]
    return sealed_each(found)


def sealed_each(plains):
    """The datagrams of these plaintexts, whatever they are, a salt for each length."""
    by_length = {}
    for it in plains:
        by_length.setdefault(len(it), []).append(it.encode("latin-1"))
    return [authenticated(it, KEYS) for size, rows in by_length.items() for it in all_sealed(KEYS.key, size.to_bytes(8, "big"), rows)]


def drawn(draw, count):
    """Plaintexts with up to three letters changed anywhere, and their digest made right or not, under a right seal and HMAC."""
    plains = []
    for _ in range(count):
        fields = Fields(stamp=NOW, seconds=draw.choice((None, 60)), kind=draw.choice(list(LENGTHS)), user=draw.randbytes(draw.randint(1, 9)).hex().encode())
        front = list(":".join(parts(fields)))
        for _ in range(draw.randint(1, 3)):
            at = draw.randrange(len(front))
            front[at:at + draw.randint(0, 1)] = draw.choice("0159:./=AZaz,~ \x00\xff")
        plains.append(with_digest(["".join(front)], fields.kind) if all(ord(it) < 128 for it in front) else "".join(front) + ":" + "A" * 43)
    return sealed_each(plains)
