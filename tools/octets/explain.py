#!/usr/bin/env python3
"""Says of octets that readers of DNS messages take differently which rule they come under.

Standard input has lines `octets NUMBER HEX`, as tools/octets/differences.c prints them. A line is printed for each
difference and rule, with how often it came and the shortest octets; what comes under no rule is printed as unexplained, and
the status is then 1.
"""
import collections
import re
import struct
import sys

KNOWN = {1: "A", 2: "NS", 5: "CNAME", 6: "SOA", 12: "PTR", 28: "AAAA", 33: "SRV", 35: "NAPTR"}

# What c-ares takes in a label.
HOST = re.compile(rb"[A-Za-z0-9_/-]*")


class Broken(Exception):
    """Why octets are no message by the rules of this project."""


def name_at(octets, at, found=None):
    """The end of a name (RFC 1035 4.1.4). A pointer leads to an earlier run of labels, which ends before the run that the
    pointer closes."""
    end, length, begun, bound = None, 0, at, len(octets)
    while True:
        if at >= bound:
            raise Broken("a name goes over the end" if end is None else "a pointer leads into its own run")
        size = octets[at]
        if size == 0:
            return at + 1 if end is None else end
        if size < 64:
            length += size + 1
            if length > 254:
                raise Broken("a name has over 255 octets")
            if found is not None and not HOST.fullmatch(octets[at + 1 : at + 1 + size]):
                found.add("a label that is none of a host")
            at += 1 + size
        elif size < 192:
            raise Broken("a label begins with the bits 01 or 10")
        else:
            if at + 1 >= bound:
                raise Broken("a pointer goes over the end")
            to = (size & 63) << 8 | octets[at + 1]
            if end is None:
                end = at + 2
            if to >= begun:
                raise Broken("a pointer does not go backward")
            if to == 0 and found is not None:
                found.add("a pointer to the first octet of the header")
            begun, bound, at = to, begun, to


def strings_at(octets, at, end, count):
    for _ in range(count):
        if at >= end or at + 1 + octets[at] > end:
            raise Broken("a character string goes over the end of its data")
        at += 1 + octets[at]
    return at


def data_end(octets, kind, at, end, found):
    """Where the data of a type ends that is read; None where its octets are kept as they are."""
    part = octets[:end]
    if kind in (1, 28):
        return at + (4 if kind == 1 else 16)
    if kind == 5:
        return name_at(part, at, found)
    if kind == 33:
        return name_at(part, at + 6, found)
    if kind == 35:
        flags = octets[at + 5 : at + 5 + octets[at + 4]] if at + 4 < end else b""
        if flags and not flags.isalnum():
            found.add("flags of NAPTR that are no letters or digits")
        return name_at(part, strings_at(octets, at + 4, end, 3), found)
    if kind == 6:
        return name_at(part, name_at(part, at, found), found) + 20
    return None


def numbers(octets, at, form):
    size = struct.calcsize(form)
    if at + size > len(octets):
        raise Broken("a field goes over the end")
    return struct.unpack_from(form, octets, at)


def features_of(octets):
    """What others may refuse in octets that this project reads; raises Broken where it does not read them."""
    found = set()
    counts = numbers(octets, 4, ">4H")
    flags = numbers(octets, 2, ">H")[0]
    if flags >> 11 & 15 not in (0, 2, 4, 5):
        found.add("an opcode that is not in use")
    if counts[0] != 1:
        found.add("not one question")
    at = 12
    for _ in range(counts[0]):
        at = name_at(octets, at, found)
        kind, family = numbers(octets, at, ">2H")
        if kind not in KNOWN:
            found.add("a question of another type")
        if family != 1:
            found.add("a class that is not IN")
        at += 4
    for _ in range(sum(counts[1:])):
        at = name_at(octets, at, found)
        kind, family, ttl, size = numbers(octets, at, ">2HIH")
        at += 10
        end = at + size
        if end > len(octets):
            raise Broken("data goes over the end")
        if family != 1:
            found.add("a class that is not IN")
        if ttl >= 1 << 31:
            found.add("a TTL of 2^31 or more")
        stop = data_end(octets, kind, at, end, found) if family == 1 else None
        if stop is None:
            found.add("data that is kept as it is")
        elif stop != end:
            raise Broken("data of a known type has octets too few or too many")
        at = end
    if at < len(octets):
        found.add("octets behind the last record")
    return found


WHO = {2: "trust-dns-proto", 4: "ldns", 8: "wokhleas", 16: "c-ares"}


def verdict(number):
    reads = [name for bit, name in WHO.items() if number & bit]
    return "read by " + (" and ".join(reads) or "none") + ("" if number & 1 else ", other counts")


def main():
    rows = collections.defaultdict(list)
    for line in sys.stdin:
        if not line.startswith("octets "):
            continue
        _, number, text = line.split()
        octets = bytes.fromhex(text)
        try:
            features = features_of(octets)
            rule = "; ".join(sorted(features)) or "no rule"
            is_right = int(number) & 8
        except Broken as why:
            rule, is_right = str(why), not int(number) & 8
        rows[verdict(int(number)), rule if is_right else "UNEXPLAINED: by its rules it reads or refuses it: " + rule].append(octets)
    for (said, rule), octets in sorted(rows.items()):
        print(f"{len(octets)}: {said}: {rule}: {min(octets, key=len).hex()}")
    return int(any("UNEXPLAINED" in rule or rule == "no rule" for _, rule in rows))


if __name__ == "__main__":
    sys.exit(main())
