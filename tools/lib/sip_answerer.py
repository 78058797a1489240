"""SIP servers on loopback addresses that answer OPTIONS requests in the ways of tests/pings, and a small DNS server that
names them.

A server is a transport, `u` (UDP) or `t` (TCP), and what it does:

  STATUS    replies with this status; `STATUS+STATUS` with one after the other
  late      replies with 200 after 200 milliseconds
  second    replies with 200 to the second copy of a request alone
  twice     replies with 200, and once more
  branch    replies with 200 under another branch
  port      replies with 200 from another port
  never     takes what comes, and says nothing
  closed    has no socket at its port
  parts     sends the octets of a 200 in parts, over TCP
  long      sends 100,000 octets without an end of a header, over TCP
  junk      sends what is no message, over TCP
  cut       closes the connection when a request is there
"""
import re
import socket
import threading
import time

import dns_messages as dns

HOST = "127.0.0.1"


def value_of(request, name):
    found = re.search(rf"^{name}: *(.*)\r$", request, re.MULTILINE | re.IGNORECASE)
    return found[1] if found else ""


def reply_to(request, status, branch=None):
    """The octets of a reply (RFC 3261 8.2.6.2)."""
    via = value_of(request, "Via")
    if branch:
        via = re.sub(r"branch=[^;]*", f"branch={branch}", via)
    lines = [
        f"SIP/2.0 {status} Reason",
        f"Via: {via}",
        f"From: {value_of(request, 'From')}",
        f"To: {value_of(request, 'To')};tag=answerer",
        f"Call-ID: {value_of(request, 'Call-ID')}",
        f"CSeq: {value_of(request, 'CSeq')}",
        "Content-Length: 0",
    ]
    return "".join(line + "\r\n" for line in [*lines, ""]).encode()


class Server:
    """A server, and the requests that it saw."""

    def __init__(self, transport, how):
        self.how, self.requests, self.times = how, [], []
        kind = socket.SOCK_DGRAM if transport == "u" else socket.SOCK_STREAM
        self.socket = socket.socket(socket.AF_INET, kind)
        self.socket.bind((HOST, 0))
        self.port = self.socket.getsockname()[1]
        if how == "closed":
            self.socket.close()
            return
        if transport == "t":
            self.socket.listen(16)
        run = self.run_udp if transport == "u" else self.run_tcp
        threading.Thread(target=run, daemon=True).start()

    def see(self, octets):
        self.requests.append(octets.decode())
        self.times.append(time.monotonic())
        return self.requests[-1]

    def replies(self, request):
        """The replies, each after so many seconds."""
        if self.how == "late":
            return [(0.2, reply_to(request, 200))]
        if self.how == "second":
            return [(0, reply_to(request, 200))] if len(self.requests) == 2 else []
        if self.how == "twice":
            return [(0, reply_to(request, 200))] * 2
        if self.how == "branch":
            return [(0, reply_to(request, 200, "z9hG4bKother"))]
        if self.how in ("never", "port"):
            return []
        return [(0.05 * at, reply_to(request, status)) for at, status in enumerate(self.how.split("+"))]

    def run_udp(self):
        while True:
            octets, peer = self.socket.recvfrom(65536)
            request = self.see(octets)
            if self.how == "port":
                with socket.socket(socket.AF_INET, socket.SOCK_DGRAM) as other:
                    other.sendto(reply_to(request, 200), peer)
            for wait, reply in self.replies(request):
                time.sleep(wait)
                self.socket.sendto(reply, peer)

    def run_tcp(self):
        while True:
            stream, _ = self.socket.accept()
            threading.Thread(target=self.serve, args=(stream,), daemon=True).start()

    def serve(self, stream):
        octets = b""
        while b"\r\n\r\n" not in octets:
            part = stream.recv(4096)
            if not part:
                return
            octets += part
        request = self.see(octets)
        try:
            if self.how == "long":
                stream.sendall(b"SIP/2.0 200 OK\r\nX: " + b"a" * 100_000)
            elif self.how == "junk":
                stream.sendall(b"HTTP/1.1 400 Bad Request\r\nContent-Length: a\r\n\r\n")
            elif self.how == "cut":
                stream.close()
                return
            elif self.how == "parts":
                for octet in reply_to(request, 200):
                    stream.sendall(bytes([octet]))
                    time.sleep(0.0005)
            else:
                for wait, reply in self.replies(request):
                    time.sleep(wait)
                    stream.sendall(reply)
            stream.recv(1)
        except OSError:
            pass


# ---- the DNS server: the first label of a name says which servers a domain has, as `u5061-t5062-s5063`

SERVICES = {"u": ("SIP+D2U", "_sip._udp"), "t": ("SIP+D2T", "_sip._tcp"), "s": ("SIPS+D2T", "_sips._tcp")}


def records(name, kind):
    """The records of a name, each by its type and data."""
    service, _, domain = name.partition(".") if name.startswith("_") else ("", "", name)
    if service:
        transport, _, domain = domain.partition(".")
        service = f"{service}.{transport}"
    servers = re.findall(r"([uts])(\d+)", domain.partition(".")[0])
    if kind == dns.A and name == "host.ping.example":
        return [(dns.A, bytes([127, 0, 0, 1]))]
    if kind == dns.NAPTR and not service:
        offered = dict.fromkeys(SERVICES[letter] for letter, _ in servers)
        return [dns.naptr(10 + at, field, f"{labels}.{domain}") for at, (field, labels) in enumerate(offered)]
    if kind == dns.SRV:
        ports = [int(port) for letter, port in servers if SERVICES[letter][1] == service]
        return [dns.srv(at, port, "host.ping.example") for at, port in enumerate(ports)]
    return []


class Names:
    """The DNS server."""

    def __init__(self):
        self.socket = socket.socket(socket.AF_INET, socket.SOCK_DGRAM)
        self.socket.bind((HOST, 0))
        self.port = self.socket.getsockname()[1]
        threading.Thread(target=self.run, daemon=True).start()

    def run(self):
        while True:
            octets, peer = self.socket.recvfrom(4096)
            query = dns.Query(octets)
            found = [dns.record(dns.QNAME, 60, *record) for record in records(query.name.lower(), query.type)]
            self.socket.sendto(dns.message(query.ident, dns.REPLY, query.question, found), peer)
