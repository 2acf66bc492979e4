"""Address texts, and what must be read from each: the printed text and the number, or nothing where it is refused.
`tools/check` asks the program all of them.

The judge is Python's `ipaddress`. It and ipam_addr differ in two places, where ipam_addr's own
rule decides:

  zone    `ipaddress` takes a zone, as in `fe80::1%eth0`; ipam_addr refuses it.
  dotted  newer `ipaddress` prints an IPv4-mapped address in dots; ipam_addr prints hex groups.
"""

import ipaddress
import random

IPV6_LINES = 340
IPV4_LINES = 120

# Texts that a reader is likely to get wrong.
IPV6_BY_HAND = """
:: ::1 1:: ::ffff:1.2.3.4 ::1.2.3.4 ::ffff:0:1.2.3.4 64:ff9b::192.0.2.33 2001:DB8:0:0:1:0:0:1
1:2:3:4:5:6:7:: ::2:3:4:5:6:7:8 1:2:3:4:5:6:7:8 1:0:0:2:0:0:0:3 0:0:1:0:0:0:0:0 1:0:0:2:0:0:3:4
1:2:3:4:5:6:1.2.3.4 1:2:3:4:5::1.2.3.4 1:2:3:4:5:6::1.2.3.4 1:2:3:4:5:6:7:1.2.3.4 1.2.3.4:: ::1.2.3.4:5
1::2::3 ::: :::1 1::: : :1 1: 1:2:3:4:5:6:7 1:2:3:4:5:6:7:8:9 1:2:3:4:5:6:7:8: :1:2:3:4:5:6:7:8
1:2:3:4:5:6:7:8:: ::1:2:3:4:5:6:7:8 1:2:3:4::5:6:7:8 12345:: ::12345 ::00001 ::0001 ::g ::G ::ffff
::FFFF ::1.2.3 ::1.2.3.4.5 ::1.2.3.256 ::1.2.3.04 ::1.2.3. ::.1.2.3 ::1..2.3 [::1] ::1/128 0x1::
fe80::1%eth0 fe80::1%1 fe80::1% ::%lo %1 2001:db8::-1 2001:db8::+1 2001_db8:: 0:0:0:0:0:0:0:0
ffff:ffff:ffff:ffff:ffff:ffff:ffff:ffff ffff:ffff:ffff:ffff:ffff:ffff:255.255.255.255
""".split()

IPV4_BY_HAND = """
0.0.0.0 255.255.255.255 1.2.3.4 10.0.0.1 127.0.0.1 010.0.0.0 10.00.0.0 10.0.0.01 256.0.0.1 1.2.3.256
1.2.3 1.2.3.4.5 1.2.3. .1.2.3 1..2.3 1.2.3.4. 1.2.3.-4 1.2.3.+4 0x1.2.3.4 1.2.3.4/32 1.2.3.a 999.1.1.1
1.2.3.1000 1,2,3,4 1 16909060 1.2.3.4%eth0 ١.2.3.4 00.0.0.0 0.0.0.00 1.2.3.4:5
""".split()


def value_of(text):
    """The address that the text writes, or None."""
    try:
        address = ipaddress.ip_address(text)
    except ValueError:
        return None
    return None if "%" in text else address


def groups_text(address):
    """RFC 5952 in hex groups alone."""
    groups = [int(group, 16) for group in address.exploded.split(":")]
    best, length = 0, 0
    for start in range(8):
        run = 0
        while start + run < 8 and groups[start + run] == 0:
            run += 1
        if run > length:
            best, length = start, run
    words = [f"{group:x}" for group in groups]
    if length < 2:
        return ":".join(words)
    return ":".join(words[:best]) + "::" + ":".join(words[best + length:])


def printed(address):
    return str(address) if address.version == 4 else groups_text(address)


def random_ipv6(rng):
    groups = [rng.choice([0, 0, 0, 1, 0xF, 0x10, 0xFF, 0x100, 0xFFF, 0x1000, 0xFFFF, rng.randrange(65536)]) for _ in range(8)]
    return groups


def spell_ipv6(rng, groups):
    """One of the ways in which RFC 4291 writes the groups."""
    digits = rng.choice(["x", "X", "04x", "04X"])
    words = [format(group, digits) for group in groups]
    dotted = rng.random() < 0.3
    if dotted:
        octets = [groups[6] >> 8, groups[6] & 255, groups[7] >> 8, groups[7] & 255]
        words = words[:6] + [".".join(map(str, octets))]
    hex_count = 6 if dotted else 8
    runs = [(a, b) for a in range(hex_count) for b in range(a + 1, hex_count + 1) if not any(groups[a:b])]
    if runs and rng.random() < 0.7:
        a, b = rng.choice(runs)
        return ":".join(words[:a]) + "::" + ":".join(words[b:])
    return ":".join(words)


def spoil(rng, text, letters):
    """The text with one small change, which may leave it good."""
    at = rng.randrange(len(text) + 1)
    change = rng.randrange(4)
    if change == 0 and text:
        return text[:at] + text[at + 1:]
    if change == 1:
        return text[:at] + rng.choice(letters) + text[at:]
    if change == 2:
        return text[:at] + rng.choice(letters) + text[at + 1:]
    return text[:at] + text[at:at + 2] + text[at:]


def texts_ipv6(rng):
    yield from IPV6_BY_HAND
    while True:
        good = spell_ipv6(rng, random_ipv6(rng))
        yield good
        yield spoil(rng, good, "0123456789abcdefABCDEFgG::::..%/-")


def texts_ipv4(rng):
    yield from IPV4_BY_HAND
    while True:
        octets = [rng.choice([0, 1, 9, 10, 99, 100, 199, 255, rng.randrange(256)]) for _ in range(4)]
        good = ".".join(map(str, octets))
        yield good
        yield spoil(rng, good, "0123456789....:-x")


def read(texts, count, version):
    """So many of the texts, each with what is read of it: what it prints as and its number, or nothing."""
    seen = set()
    made = []
    for text in texts:
        if len(made) >= count:
            return made
        if text in seen or not text.isascii():
            continue
        seen.add(text)
        address = value_of(text)
        if address is not None and address.version != version:
            continue
        made.append((text, None if address is None else (printed(address), int(address))))


def cases():
    """The texts of both families, always the same, with what is read of each."""
    rng = random.Random(20260101)
    return read(texts_ipv6(rng), IPV6_LINES, 6) + read(texts_ipv4(rng), IPV4_LINES, 4)
