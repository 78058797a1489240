"""DNS servers that others wrote, NSD, Knot DNS and BIND (Debian's packages nsd, knot and bind9), each over one zone `example.`
on the loopback address."""
import os
import random
import socket
import subprocess
import sys
import time

import dns_messages as dns

os.environ["PATH"] += ":/usr/sbin"


def has_six():
    """Whether this host has the loopback address of IPv6."""
    try:
        with open("/proc/net/if_inet6", encoding="ascii") as places:
            return any(place.startswith("0" * 31 + "1 ") for place in places)
    except OSError:
        return False


def nsd(room, port):
    six = f" ip-address: ::1@{port}\n" if has_six() else ""
    return ["nsd", "-d", "-c", f"{room}/conf"], (
        f'server:\n ip-address: 127.0.0.1@{port}\n{six} server-count: 1\n rrl-ratelimit: 0\n username: ""\n database: ""\n'
        f' zonesdir: "{room}"\n pidfile: "{room}/pid"\n xfrdfile: "{room}/xfrd"\n xfrdir: "{room}"\n'
        f' zonelistfile: "{room}/list"\nremote-control:\n control-enable: no\n'
        f"zone:\n name: example.\n zonefile: zone\n")


def knot(room, port):
    return ["knotd", "-c", f"{room}/conf"], (
        f"server:\n  rundir: {room}\n  listen: 127.0.0.1@{port}\n  udp-workers: 1\n  tcp-workers: 1\n"
        f"database:\n  storage: {room}\nzone:\n  - domain: example.\n    storage: {room}\n    file: zone\n"
        f"    zonefile-sync: -1\n    journal-content: none\n")


def bind(room, port):
    return ["named", "-g", "-n", "1", "-c", f"{room}/conf"], (
        f'options {{ directory "{room}"; pid-file "{room}/pid"; listen-on port {port} {{ 127.0.0.1; }};\n'
        f' listen-on-v6 {{ none; }}; recursion no; session-keyfile "{room}/key"; }};\n'
        f'controls {{ }};\nzone "example" {{ type primary; file "{room}/zone"; }};\n')


# the server's program, and what gives its command and the text of its file of settings
SERVERS = {"nsd": ("nsd", nsd), "knot": ("knotd", knot), "bind": ("named", bind)}


def is_up(port):
    """Whether a server has the zone."""
    try:
        with socket.socket(socket.AF_INET, socket.SOCK_DGRAM) as wire:
            wire.settimeout(2)
            wire.connect(("127.0.0.1", port))
            wire.send(dns.query_for("example", dns.SOA))
            return wire.recv(4096)[7] > 0
    except OSError:
        return False


def write(path, text):
    with open(path, "w", encoding="ascii") as file:
        file.write(text)


def start(name, zone, room):
    """Starts a server over the text of a zone, in a folder, on a port that it finds free: its process, and its port."""
    os.chmod(room, 0o755)
    write(f"{room}/zone", zone)
    for _ in range(10):
        port = random.randrange(20_000, 30_000)
        words, settings = SERVERS[name][1](room, port)
        write(f"{room}/conf", settings)
        with open(f"{room}/said", "w", encoding="utf-8") as said:
            server = subprocess.Popen(words, stdout=said, stderr=said)
        for _ in range(200):
            if server.poll() is not None:
                break
            if is_up(port):
                return server, port
            time.sleep(0.1)
        server.kill()
        server.wait()
    with open(f"{room}/said", encoding="utf-8") as said:
        sys.exit(f"{name} did not start\n{said.read()}")
