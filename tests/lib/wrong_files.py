"""Files that differ from a right one, as bytes: cut, one byte changed, and lines left out, doubled, swapped, changed."""

# what stands in the place of a line's value, or behind it
VALUES = (
    "", "0", "1", "-1", "01", "+1", "1 ", "1x", "0x1", "1e1", "15", "16", "4096", "4097", "65535", "65536", "604800", "604801", "31536000", "31536001",
    "67108864", "67108865", "999999999999", "1000000000000", "18446744073709551615", "18446744073709551616", "36893488147419103233",
    "Y", "N", "y", "YES", "ANY", "any", "NONE", "source", "MD5", "sha1", "Sha256", "SHA3", "sha512", ";", ";;", "#", "[x]", "x" * 64, "x" * 65, "x" * 128,
    "x" * 129, "x" * 255, "x" * 256, "x" * 512, "x" * 513, " ".join("x" * 32), " ".join("x" * 33), "$", "$IP", "$ip", "$IPS", "$$", "$SRC$", "/bin/o $PKT_SRC/$PORT",
    "10.0.0.7", "10.0.0.256", "10.0.0.07", "10.0.0", "::1", "10.0.0.0/0", "10.0.0.0/32", "10.0.0.0/33", "10.0.0.0/08", "10.0.0.0/", "10.0.0.0/8,\t10.0.0.7",
    "10.0.0.7 ,10.0.0.8", "10.0.0.7,", ", ".join(["10.0.0.7"] * 16), ", ".join(["10.0.0.7"] * 17), "tcp/22", "TCP/22", "tcp/0", "tcp/65535", "tcp/65536", "tcp/022",
    "tcp/22,,udp/1", "tcp/22, udp/53", ",".join(["tcp/22"] * 16), ",".join(["tcp/22"] * 17), ",".join(["tcp/22"] * 64), ",".join(["tcp/22"] * 65),
    "QUJD", "QUJD=", "QUJD==", "QUJD===", "QQ", "QQ==", "QR==", "Q", "Q=UJ", "QUJD!", "A" * 171, "A" * 172, "A" * 173,
)
# the bytes that mean something in a line, and those at the bounds of what may stand there
MARKS = b"\x00\t\n\r\x1f #$,/0:;=[]YN_\x7e\x7f\x80\xff"


def cuts(data):
    return [data[:at] for at in range(len(data))]


def changed(data, draw, count):
    """The file with one byte changed: each place with each byte that means something and each of its bits, and so many with any bytes."""
    for at, there in enumerate(data):
        for it in sorted({*MARKS, *(there ^ 1 << bit for bit in range(8))} - {there}):
            yield data[:at] + bytes([it]) + data[at + 1:]
    for _ in range(count):
        found = bytearray(data)
        for _ in range(draw.choice((1, 2, 3))):
            at = draw.randrange(len(found))
            how = draw.randrange(3)
            found[at:at + (how > 0)] = draw.randbytes(how < 2)
        yield bytes(found)


def relined(data, names):
    """The file with lines left out, doubled, swapped, at each place, of another name or value, as long as a line may be, and longer."""
    lines = data.split(b"\n")[:-1]

    def joined(*rows):
        return b"".join(it + b"\n" for it in rows)

    for at, line in enumerate(lines):
        before, behind = lines[:at], lines[at + 1:]
        yield joined(*before, *behind)
        yield joined(*before, *behind, line)
        yield joined(*lines, line)
        yield joined(*before, line, line, *behind)
        yield from (joined(*before, lines[other], *lines[at + 1:other], line, *lines[other + 1:]) for other in range(at + 1, len(lines)))
        name = line.split()[0] if line.split() else b"#"
        for value in VALUES:
            yield joined(*before, name + b" " + value.encode(), *behind)
        for other in names:
            yield joined(*before, other.encode() + line[len(name):], *behind)
        for other in (b":", b"::", b"\t", b";", b" ;", b" ;;", b" ; ", b"\r", b"\r\r", b" #"):
            yield joined(*before, name + other + line[len(name):], *behind)
            yield joined(*before, line + other, *behind)
        for size in (2000, 2001):
            yield joined(*before, line.ljust(size, b"x"), *behind)
            yield joined(*before, b" " + line.ljust(size, b" ") + b"\t", *behind)
            yield joined(*before, b"#" + line.ljust(size, b"\x80"), *behind)
        for byte in (0, 0x1f, 0x7f, 0x80, 0xff):
            yield joined(*before, line + bytes([byte]), *behind)
            yield joined(*before, bytes([byte]), *behind)
    yield joined(*lines)[:-1]
    yield joined(*lines) * 2
    yield joined(*reversed(lines))
    yield data.replace(b"\n", b"\r\n")
    yield data.replace(b" ", b"\t  ")
    yield b"\xef\xbb\xbf" + data
    yield b"\n" * 300 + data + b"\n#\xff\n"
