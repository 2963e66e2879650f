"""The three files in Python, from the page docs/configuration.md alone: what a configuration, an access file or a client's file says, or
the number of the first line that is wrong and what is wrong with it."""
import dataclasses, re
from admission import Stanza
from packet import GREATEST_MOMENT, GREATEST_SECONDS, LENGTHS, Keys, is_address, is_pair, number, untext

LONGEST_FILE = 1048576
LONGEST_LINE = 2000
BLANKS = " \t"
SPELLINGS = {"KEY_BASE64": "KEY", "HMAC_KEY_BASE64": "HMAC_KEY"}
COMMAND_NAMES = ("$IP", "$SRC", "$PKT_SRC", "$PORT", "$PROTO", "$TIMEOUT", "$ACCESS")


class Wrong(Exception):
    """A line is wrong: its number and what is wrong, the two arguments."""


# --- lines


def lines_of(data):
    """The number, name and value of each line that is not skipped, as far as the first that has none."""
    rows = data.decode("latin-1").split("\n")
    if rows[-1] == "":
        rows.pop()
    for at, row in enumerate(rows, 1):
        row = row.removesuffix("\r").strip(BLANKS)
        if row == "" or row.startswith("#"):
            continue
        if len(row) > LONGEST_LINE:
            raise Wrong(at, "TooLong")
        if not re.fullmatch(r"[\t\x20-\x7e]*", row):
            raise Wrong(at, "BadByte")
        name, value = named(row)
        if value == "":
            raise Wrong(at, "NoValue")
        yield at, name, value


def named(row):
    if row.startswith("[") and row.endswith("]"):
        return "[", row[1:-1].strip(BLANKS)
    name, value = re.fullmatch(r"([^ \t]*)(.*)", row).groups()
    value = value.strip(BLANKS)
    if value.endswith(";"):
        value = value[:-1].rstrip(BLANKS)
    return name.removesuffix(":"), value


# --- values: what each says, or None


def flag(value):
    return {"Y": True, "N": False}.get(value)


def hash_name(value):
    return value.upper() if value in LENGTHS or value.upper() in LENGTHS and value == value.lower() else None


def key(name, value):
    if name.endswith("_BASE64"):
        data = untext(re.sub("={1,2}$", "", value))
    else:
        data = value.encode("latin-1")
    return data if data is not None and 1 <= len(data) <= 128 else None


def items(value, is_item, most):
    """The items of a list, each of them right, at most so many."""
    found = re.split(r",[ \t]*", value)
    return tuple(found) if len(found) <= most and all(map(is_item, found)) else None


def is_net(it):
    address, slash, bits = it.partition("/")
    return is_address(address) and (not slash or number(bits, 0, 32) is not None)


def nets(value):
    return () if value == "ANY" else items(value, is_net, 16)


def short(value, most):
    return value if 1 <= len(value) <= most else None


def command(value):
    words = value.replace("\t", " ").split()
    right = len(value) <= 512 and len(words) <= 32 and all(it in COMMAND_NAMES for it in re.findall("[$][A-Z_]*", value))
    return value if right else None


def closing(value):
    return None if value == "NONE" else command(value)


def value_of(rules, line, name, value):
    """What the value says by its name's rule."""
    found = rules[name](value)
    if found is None:
        raise Wrong(line, "BadValue")
    return found


# --- the configuration


def yes(value):
    return True if value == "Y" else None


CONF = {
    "MAX_SPA_PACKET_AGE": lambda it: number(it, 1, 31536000), "UDPSERV_PORT": lambda it: number(it, 1, 65535),
    "CYCLE_LIMIT": lambda it: number(it, 1, 4096), "JOURNAL_LIMIT": lambda it: number(it, 16, 67108864),
    "DIGEST_KEEP": lambda it: number(it, 1, 31536000),
    **dict.fromkeys(("ENABLE_UDP_SERVER", "ENABLE_SPA_PACKET_AGING", "ENABLE_DIGEST_PERSISTENCE"), yes),
    **dict.fromkeys(("PCAP_INTF", "PCAP_FILTER", "ENABLE_PCAP_PROMISC", "SYSLOG_IDENTITY", "SYSLOG_FACILITY", "FWKNOP_RUN_DIR"), str),
}


def read_conf(data):
    """The value of each name of the configuration that stands there."""
    found = {}
    for line, name, value in lines_of(data):
        if name not in CONF:
            raise Wrong(line, "UnknownName")
        if name in found:
            raise Wrong(line, "Twice")
        found[name] = value_of(CONF, line, name, value)
    return found


# --- the access file


OF_A_PAIR = {
    "KEY": lambda it: key("KEY", it), "KEY_BASE64": lambda it: key("KEY_BASE64", it),
    "HMAC_KEY": lambda it: key("HMAC_KEY", it), "HMAC_KEY_BASE64": lambda it: key("HMAC_KEY_BASE64", it),
    "HMAC_DIGEST_TYPE": hash_name,
}
ACCESS = {
    **OF_A_PAIR,
    "SOURCE": nets, "OPEN_PORTS": lambda it: items(it, is_pair, 64), "RESTRICT_PORTS": lambda it: items(it, is_pair, 64),
    "KEYS_UNTIL": lambda it: number(it, 0, GREATEST_MOMENT), "REQUIRE_USERNAME": lambda it: short(it, 64),
    "REQUIRE_SOURCE_ADDRESS": flag, "ACCESS_EXPIRE_EPOCH": lambda it: number(it, 0, GREATEST_MOMENT), "CMD_CYCLE_OPEN": command,
    "CMD_CYCLE_CLOSE": closing, "CMD_CYCLE_TIMER": lambda it: number(it, 1, GREATEST_SECONDS),
    "FW_ACCESS_TIMEOUT": lambda it: number(it, 0, 2**64 - 1),
}


class Open:
    """A stanza whose lines are being read."""

    def __init__(self, line):
        self.line, self.values, self.pair, self.ended = line, {}, {}, []

    def lacks_key(self):
        return "NoKey" if "KEY" not in self.pair else "NoHmacKey" if "HMAC_KEY" not in self.pair else None

    def takes(self, line, name, value):
        spelling = SPELLINGS.get(name, name)
        if (name in OF_A_PAIR or name == "KEYS_UNTIL") and len(self.ended) == 4:
            raise Wrong(line, "TooMany")
        values = self.pair if name in OF_A_PAIR else self.values
        if spelling in values:
            raise Wrong(line, "Twice")
        found = value_of(ACCESS, line, name, value)
        if name != "KEYS_UNTIL":
            values[spelling] = found
        elif self.lacks_key():
            raise Wrong(line, self.lacks_key())
        else:
            self.end_pair(found)

    def end_pair(self, until):
        self.ended.append((Keys(self.pair["KEY"], self.pair["HMAC_KEY"], self.pair.get("HMAC_DIGEST_TYPE", "SHA256")), until))
        self.pair = {}

    def closed(self):
        """The stanza, where nothing is missing."""
        lacks = self.lacks_key() if self.pair or not self.ended else None
        for name, what in (("CMD_CYCLE_OPEN", "NoOpen"), ("CMD_CYCLE_CLOSE", "NoClose"), ("CMD_CYCLE_TIMER", "NoTimer")):
            lacks = lacks or (None if name in self.values else what)
        if lacks:
            raise Wrong(self.line, lacks)
        if self.pair:
            self.end_pair(None)
        it = self.values
        user = it.get("REQUIRE_USERNAME")
        return Stanza(ring=tuple(self.ended), sources=it["SOURCE"], allowed=it.get("OPEN_PORTS"), barred=it.get("RESTRICT_PORTS", ()),
                      user=None if user is None else user.encode("latin-1"), needs_address=it.get("REQUIRE_SOURCE_ADDRESS", False),
                      expires=it.get("ACCESS_EXPIRE_EPOCH"), timer=it["CMD_CYCLE_TIMER"], opening=it["CMD_CYCLE_OPEN"],
                      closing=it["CMD_CYCLE_CLOSE"])


def read_access(data):
    """The stanzas of an access file."""
    found, stanza = [], None
    for line, name, value in lines_of(data):
        if name not in ACCESS:
            raise Wrong(line, "UnknownName")
        if name == "SOURCE":
            if stanza is not None:
                found.append(stanza.closed())
            if len(found) == 256:
                raise Wrong(line, "TooMany")
            stanza = Open(line)
            stanza.values["SOURCE"] = value_of(ACCESS, line, name, value)
        elif stanza is None:
            raise Wrong(line, "NoSource")
        else:
            stanza.takes(line, name, value)
    return found if stanza is None else [*found, stanza.closed()]


# --- the client's file


RC = {
    **OF_A_PAIR, "DIGEST_TYPE": hash_name, "SPA_SERVER": lambda it: short(it, 255) if not set(it) & set(BLANKS) else None,
    "SPA_SERVER_PORT": lambda it: number(it, 1, 65535), "ACCESS": lambda it: items(it, is_pair, 16),
    "ALLOW_IP": lambda it: "0.0.0.0" if it == "source" else it if is_address(it) else None,
    "FW_TIMEOUT": lambda it: number(it, 1, GREATEST_SECONDS),
    "SPOOF_USER": lambda it: short(it, 64) if "\t" not in it else None, "USE_HMAC": yes,
}


def read_rc(data):
    """The values of each stanza of a client's file, by its name."""
    found, stanza = {}, None
    for line, name, value in lines_of(data):
        if name == "[":
            if len(found) == 256:
                raise Wrong(line, "TooMany")
            if value in found:
                raise Wrong(line, "Twice")
            if len(value) > 64:
                raise Wrong(line, "BadValue")
            stanza = found[value] = {}
        elif name not in RC:
            raise Wrong(line, "UnknownName")
        elif stanza is None:
            raise Wrong(line, "NoStanza")
        elif SPELLINGS.get(name, name) in stanza:
            raise Wrong(line, "Twice")
        else:
            stanza[SPELLINGS.get(name, name)] = value_of(RC, line, name, value)
    return found


@dataclasses.dataclass(frozen=True)
class Settings:
    keys: Keys
    pairs: tuple
    address: str
    seconds: int | None
    user: bytes
    # the hash of the digest
    kind: str


class Needed(Exception):
    """What is needed and stands nowhere, the one argument."""


def settings(stanzas, name):
    """What a packet is asked for with that is shown and not sent, by the stanza of this name."""
    if name not in stanzas:
        raise Needed("NoStanza")
    it = {**stanzas.get("default", {}), **stanzas[name]}
    for wanted, what in (("ACCESS", "NoAccess"), ("ALLOW_IP", "NoAllow"), ("KEY", "NoKey"), ("HMAC_KEY", "NoHmacKey")):
        if wanted not in it:
            raise Needed(what)
    keys = Keys(it["KEY"], it["HMAC_KEY"], it.get("HMAC_DIGEST_TYPE", "SHA256"))
    return Settings(keys, it["ACCESS"], it["ALLOW_IP"], it.get("FW_TIMEOUT"), it.get("SPOOF_USER", "fwknop").encode(),
                    it.get("DIGEST_TYPE", "SHA256"))
