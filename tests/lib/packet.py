"""Packets in Python, from the page docs/packet.md alone: the fields of a packet to its datagram, and back.

The cipher is the command `openssl`; `CIPHER` says whether it is there.
"""
import base64, dataclasses, hashlib, hmac, os, re, shutil, subprocess

CIPHER = shutil.which("openssl") is not None
LETTERS = "ABCDEFGHIJKLMNOPQRSTUVWXYZabcdefghijklmnopqrstuvwxyz0123456789+/"
# the ten letters that a datagram leaves out
PREFIX = "U2FsdGVkX1"
GREATEST_MOMENT = 999999999999
GREATEST_SECONDS = 604800
# the letters of each hash's text
LENGTHS = {"MD5": 22, "SHA1": 27, "SHA256": 43, "SHA384": 64, "SHA512": 86}


# --- texts and hashes


def text(data):
    """Base64 without padding."""
    return base64.b64encode(data).decode().rstrip("=")


def untext(letters):
    """The bytes of a text, or None: no other letters, no lone letter at the end, no bits behind the last whole byte."""
    if any(it not in LETTERS for it in letters) or len(letters) % 4 == 1:
        return None
    data = base64.b64decode(letters + "=" * (-len(letters) % 4))
    return data if text(data) == letters else None


def hash_text(kind, message):
    return text(hashlib.new(kind.lower(), message).digest())


def mac_text(kind, key, message):
    return text(hmac.new(key, message, kind.lower()).digest())


# --- the sealed form


def derived(key, salt):
    """The AES key and the IV."""
    digests = [hashlib.md5(key + salt).digest()]
    for _ in range(2):
        digests.append(hashlib.md5(digests[-1] + key + salt).digest())
    return digests[0] + digests[1], digests[2]


def openssl(words, data):
    return subprocess.run(["openssl", "enc", "-nopad", *words], input=data, stdout=subprocess.PIPE, check=True).stdout


def padded(plain):
    count = 16 - len(plain) % 16
    return plain + bytes([count]) * count


def sealed(key, salt, plain):
    aes, iv = derived(key, salt)
    return b"Salted__" + salt + openssl(["-e", "-aes-256-cbc", "-K", aes.hex(), "-iv", iv.hex()], padded(plain))


def all_sealed(key, salt, plains):
    """The sealed bytes of many plaintexts of one length under one salt, block by block of all of them at once: one call of openssl
    for each block, however many plaintexts there are."""
    aes, iv = derived(key, salt)
    rows = [padded(it) for it in plains]
    sealed_rows, last = [b"Salted__" + salt for _ in rows], [iv] * len(rows)
    for at in range(0, len(rows[0]) if rows else 0, 16):
        mixed = b"".join((int.from_bytes(row[at:at + 16], "big") ^ int.from_bytes(before, "big")).to_bytes(16, "big")
                         for row, before in zip(rows, last))
        blocks = openssl(["-e", "-aes-256-ecb", "-K", aes.hex()], mixed)
        last = [blocks[it:it + 16] for it in range(0, len(blocks), 16)]
        sealed_rows = [row + block for row, block in zip(sealed_rows, last)]
    return sealed_rows


def unsealed(key, data):
    """The plaintext, or None where the bytes do not open."""
    if data[:8] != b"Salted__" or len(data) < 32 or len(data) % 16:
        return None
    aes, iv = derived(key, data[8:16])
    plain = openssl(["-d", "-aes-256-cbc", "-K", aes.hex(), "-iv", iv.hex()], data[16:])
    count = plain[-1]
    return plain[:-count] if 1 <= count <= 16 and plain.endswith(bytes([count]) * count) else None


# --- the fields and the plaintext


@dataclasses.dataclass(frozen=True)
class Fields:
    rand: str = "0123456789012345"
    user: bytes = b"bob"
    stamp: int = 1700000000
    version: str = "3.0.0"
    address: str = "10.0.0.7"
    pairs: tuple = ("tcp/22",)
    # None for an access
    seconds: int | None = None
    # the hash of the digest
    kind: str = "SHA256"


def parts(fields):
    """What stands before the digest, part by part."""
    message = text(",".join([fields.address, *fields.pairs]).encode())
    timed = [] if fields.seconds is None else [str(fields.seconds)]
    return [fields.rand, text(fields.user), str(fields.stamp), fields.version, "3" if timed else "1", message, *timed]


def with_digest(front, kind):
    """The parts joined, and their digest behind them, also of parts that break a rule."""
    joined = ":".join(front)
    return joined + ":" + hash_text(kind, joined.encode())


def plaintext(fields):
    return with_digest(parts(fields), fields.kind)


def number(digits, least, greatest):
    """The number of a decimal text without a leading zero, where it is from the least to the greatest; else None."""
    if not re.fullmatch("0|[1-9][0-9]*", digits, re.ASCII):
        return None
    return int(digits) if least <= int(digits) <= greatest else None


def is_address(it):
    return len(it.split(".")) == 4 and all(number(byte, 0, 255) is not None for byte in it.split("."))


def is_pair(it):
    return it[:4] in ("tcp/", "udp/") and number(it[4:], 1, 65535) is not None


def message(letters):
    """The address and the pairs of a message's text, or None."""
    data = untext(letters)
    address, *pairs = data.decode("latin-1").split(",") if data is not None else [""]
    if is_address(address) and 1 <= len(pairs) <= 16 and all(map(is_pair, pairs)):
        return address, tuple(pairs)
    return None


def is_user(letters):
    data = untext(letters)
    return data is not None and 1 <= len(data) <= 64 and all(0x20 <= it <= 0x7e for it in data)


FIRST_RULES = (
    lambda it: re.fullmatch("[0-9]{16}", it, re.ASCII),
    is_user,
    lambda it: number(it, 0, GREATEST_MOMENT) is not None,
    lambda it: re.fullmatch("[0-9.]{1,16}", it, re.ASCII),
    lambda it: re.fullmatch("[0-6]", it, re.ASCII),
)


def decoded(plain):
    """The fields of a plaintext and no fault, or no fields and the first fault."""
    cut = plain.decode("latin-1").split(":")
    if len(cut) < 5:
        return None, f"Missing({len(cut) + 1})"
    for place, (rule, part) in enumerate(zip(FIRST_RULES, cut), 1):
        if not rule(part):
            return None, f"Bad({place})"
    if cut[4] not in "13":
        return None, f"KindOut({cut[4]})"
    wanted = 7 if cut[4] == "1" else 8
    if len(cut) < wanted:
        return None, f"Missing({len(cut) + 1})"
    if len(cut) > wanted:
        return None, f"Bad({wanted + 1})"
    asked = message(cut[5])
    if asked is None:
        return None, "Bad(6)"
    seconds = number(cut[6], 1, GREATEST_SECONDS) if wanted == 8 else None
    if wanted == 8 and seconds is None:
        return None, "Bad(7)"
    kinds = [kind for kind, length in LENGTHS.items() if length == len(cut[-1])]
    if not kinds:
        return None, "DigestLength"
    if hash_text(kinds[0], ":".join(cut[:-1]).encode("latin-1")) != cut[-1]:
        return None, "DigestDiffers"
    return Fields(cut[0], untext(cut[1]), int(cut[2]), cut[3], *asked, seconds, kinds[0]), None


# --- the datagram


@dataclasses.dataclass(frozen=True)
class Keys:
    key: bytes = b"bob-key"
    mac_key: bytes = b"bob-mac"
    # the hash of the HMAC
    kind: str = "SHA256"


def authenticated(data, keys):
    """The datagram of sealed bytes, whatever they are."""
    whole = text(data)
    return whole[10:] + mac_text(keys.kind, keys.mac_key, whole.encode())


def packed(fields, keys, salt=None):
    """The datagram; its salt is drawn where none is given."""
    return authenticated(sealed(keys.key, os.urandom(8) if salt is None else salt, plaintext(fields).encode()), keys)


def all_packed(all_fields, keys, salt):
    """The datagrams of many fields, whose plaintexts have one length, under one salt."""
    return [authenticated(it, keys) for it in all_sealed(keys.key, salt, [plaintext(it).encode() for it in all_fields])]


def shape_fault(datagram):
    """`shape`, `prefix` or None, for which no key is needed."""
    if not 140 <= len(datagram) <= 1500 or any(it not in LETTERS for it in datagram):
        return "shape"
    return "prefix" if datagram.startswith(PREFIX) else None


def opened(datagram, keys):
    """The fields of a datagram of the right shape and no fault, or no fields and the first fault."""
    length = LENGTHS[keys.kind]
    front, code = PREFIX + datagram[:-length], datagram[-length:]
    if mac_text(keys.kind, keys.mac_key, front.encode()) != code:
        return None, "Mac"
    data = untext(front)
    plain = unsealed(keys.key, data) if data is not None else None
    return (None, "Cipher") if plain is None else decoded(plain)
