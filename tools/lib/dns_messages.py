"""Messages of the DNS in octets (RFC 1035 4.1), for the tools that answer queries or ask."""
import ipaddress
import struct

TYPES = {"A": 1, "CNAME": 5, "SOA": 6, "TXT": 16, "AAAA": 28, "SRV": 33, "NAPTR": 35, "OPT": 41}
A, CNAME, SOA, TXT, AAAA, SRV, NAPTR, OPT = TYPES.values()
RCODES = {"formerr": 1, "servfail": 2, "nxdomain": 3, "notimp": 4, "refused": 5}
FORMERR, SERVFAIL, NXDOMAIN, NOTIMP, REFUSED = RCODES.values()
QR, AA, TC, RD, RA = 0x8000, 0x0400, 0x0200, 0x0100, 0x0080
REPLY = QR | RD | RA
QNAME = b"\xc0\x0c"  # a pointer to the name that is asked for


class Query:
    """A query: its id, RD, question in octets, name and type, and the size that EDNS tells (RFC 6891 6.1.2), or None."""

    def __init__(self, octets):
        self.ident, flags = struct.unpack(">HH", octets[:4])
        self.recursion_desired = bool(flags & RD)
        labels, at = [], 12
        while octets[at]:
            labels.append(octets[at + 1:at + 1 + octets[at]].decode("ascii", "backslashreplace"))
            at += 1 + octets[at]
        self.name = ".".join(labels)
        # the first label in small letters (RFC 4343 3), and a pointer to the labels behind it (RFC 1035 4.1.4)
        self.label, self.parent = labels[0].lower() if labels else "", struct.pack(">H", 0xc00d + octets[12])
        self.type = struct.unpack(">H", octets[at + 1:at + 3])[0]
        self.question, rest = octets[12:at + 5], octets[at + 5:]
        has_opt = len(rest) >= 11 and rest[:3] == struct.pack(">BH", 0, OPT)
        self.edns = struct.unpack(">H", rest[3:5])[0] if has_opt else None


def string(text):
    """A character string (RFC 1035 3.3), or a label (3.1)."""
    return bytes([len(text)]) + text.encode()


def wire_name(name):
    """A name (RFC 1035 3.1), of text with or without a dot at its end."""
    return b"".join(string(label) for label in name.split(".") if label) + b"\0"


def soa(mname, rname, *numbers):
    """The type and data of an SOA record (RFC 1035 3.3.13), with its names in octets."""
    return SOA, mname + rname + struct.pack(">5I", *numbers)


def srv(priority, port, target):
    """The type and data of an SRV record of weight 0 (RFC 2782)."""
    return SRV, struct.pack(">HHH", priority, 0, port) + wire_name(target)


def naptr(order, service, replacement):
    """The type and data of a NAPTR record of preference 10 with the flag "s" (RFC 3403 4.1)."""
    return NAPTR, struct.pack(">HH", order, 10) + string("s") + string(service) + string("") + wire_name(replacement)


def data_of(kind, words, whole=str):
    """The data of a record, by the words of a zone's line behind its type; `whole` makes a name there a whole one."""
    if kind in ("A", "AAAA"):
        return ipaddress.ip_address(words[0]).packed
    if kind == "SRV":
        return struct.pack(">HHH", *map(int, words[:3])) + wire_name(whole(words[3]))
    if kind == "NAPTR":
        texts = b"".join(string("" if word == "-" else word.strip('"')) for word in words[2:5])
        return struct.pack(">HH", *map(int, words[:2])) + texts + wire_name(whole(words[5]))
    return wire_name(whole(words[0]))


def record(name, ttl, rtype, rdata, rclass=1):
    """A record (RFC 1035 4.1.3), by its parts in the order of a zone's line; its class is IN where none is given."""
    return name + struct.pack(">HHIH", rtype, rclass, ttl, len(rdata)) + rdata


def message(ident, flags, question, answers=(), authority=()):
    """A message of these sections, in octets; an empty question is none."""
    header = struct.pack(">6H", ident, flags, bool(question), len(answers), len(authority), 0)
    return header + question + b"".join([*answers, *authority])


def query_for(name, qtype, ident=0):
    """A query that desires recursion."""
    return message(ident, RD, wire_name(name) + struct.pack(">HH", qtype, 1))


def framed(octets):
    """A message behind its length, as TCP has it (RFC 1035 4.2.2)."""
    return struct.pack(">H", len(octets)) + octets
