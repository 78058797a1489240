"""A zone for DNS servers that are compared, and what requests over it come to."""
LONG = ".".join(["l" * 63] * 3 + ["m" * 50, "example"])

ZONE = f"""$ORIGIN example.
$TTL 300
@ SOA ns root 1 3600 600 86400 300
@ NS ns
ns A 192.0.2.1
a A 192.0.2.7
six AAAA 2001:db8::7
both A 192.0.2.8
both AAAA 2001:db8::8
alias CNAME a
first CNAME second
second CNAME first
far CNAME far1
far1 CNAME far2
far2 CNAME far3
far3 CNAME far4
far4 CNAME far5
far5 CNAME far6
far6 CNAME a
{LONG}. A 192.0.2.9
*.wild A 192.0.2.10
_sip._udp.srv SRV 20 0 5070 six
_sip._udp.srv SRV 10 0 5060 a
_sip._tcp.srv SRV 10 0 5061 both
srv A 192.0.2.99
_sip._udp.weights SRV 10 0 5060 a
_sip._udp.weights SRV 10 10 5061 both
_sip._udp.weights SRV 10 90 5062 six
_sip._udp.nowhere SRV 0 0 0 .
_sip._udp.gone SRV 0 0 5060 absent
naptr NAPTR 10 10 "s" "SIPS+D2T" "" _sips._tcp.naptr
naptr NAPTR 20 10 "s" "SIP+D2T" "" _sip._tcp.naptr
naptr NAPTR 30 10 "s" "SIP+D2U" "" _sip._udp.naptr
_sips._tcp.naptr SRV 0 0 5061 a
_sip._tcp.naptr SRV 0 0 5060 both
_sip._udp.naptr SRV 0 0 5060 six
direct NAPTR 10 10 "a" "SIP+D2U" "" both
others NAPTR 10 10 "u" "E2U+sip" "!^.*$!sip:a@example!" .
others NAPTR 20 10 "s" "SIP+D2S" "" _sip._sctp.others
_sip._sctp.others SRV 0 0 5062 a
denied NAPTR 10 10 "s" "SIP+D2U" "" _sip._udp.denied
_sip._udp.denied SRV 0 0 0 .
bare TXT "no address"
""" + "".join(f"cut A 198.51.100.{number}\n" for number in range(1, 33))

# A URI or Via, and its targets, or why it has none.
ROWS = [
    ("sip:192.0.2.9", "udp 192.0.2.9 5060"),
    ("sips:[2001:db8::9]", "tls 2001:db8:0:0:0:0:0:9 5061"),
    ("sip:192.0.2.9:5080;transport=tcp", "tcp 192.0.2.9 5080"),
    ("sip:a.example:5070", "udp 192.0.2.7 5070"),
    ("sip:both.example:5070", "udp 192.0.2.8 5070|udp 2001:db8:0:0:0:0:0:8 5070"),
    ("sip:user@A.EXAMPLE.:5070;transport=tcp", "tcp 192.0.2.7 5070"),
    ("sip:a.example", "udp 192.0.2.7 5060"),
    ("sip:alias.example:5070", "udp 192.0.2.7 5070"),
    ("sip:x.wild.example:5070", "udp 192.0.2.10 5070"),
    (f"sip:{LONG}:5070", "udp 192.0.2.9 5070"),
    ("sip:srv.example;transport=udp", "udp 192.0.2.7 5060|udp 2001:db8:0:0:0:0:0:7 5070"),
    ("sip:srv.example;transport=tcp", "tcp 192.0.2.8 5061|tcp 2001:db8:0:0:0:0:0:8 5061"),
    ("sip:weights.example;transport=udp", "udp 192.0.2.7 5060|udp 192.0.2.8 5061|udp 2001:db8:0:0:0:0:0:8 5061|"
     "udp 2001:db8:0:0:0:0:0:7 5062"),
    ("sip:nowhere.example;transport=udp", "refused NotOffered"),
    ("sip:gone.example;transport=udp", "refused NoAddress"),
    ("sip:naptr.example", "tls 192.0.2.7 5061"),
    ("sip:naptr.example;transport=udp", "udp 2001:db8:0:0:0:0:0:7 5060"),
    ("sips:naptr.example", "tls 192.0.2.7 5061"),
    ("sip:others.example", "sctp 192.0.2.7 5062"),
    ("sip:direct.example", None),
    ("sip:denied.example", "refused NotOffered"),
    ("sip:bare.example", "refused NoAddress"),
    ("sip:bare.example:5070", "refused NoAddress"),
    ("sip:absent.example", "refused NoAddress"),
    ("sip:first.example:5070", "refused NoAddress"),
    ("sip:cut.example:5070", "|".join(f"udp 198.51.100.{number} 5070" for number in range(1, 33))),
    ("Via: SIP/2.0/UDP a.example;branch=z9hG4bK1", "udp 192.0.2.7 5060"),
    ("Via: SIP/2.0/TCP both.example:5071;branch=z9hG4bK1", "tcp 192.0.2.8 5071|tcp 2001:db8:0:0:0:0:0:8 5071"),
    ("sip:far.example:5070", "udp 192.0.2.7 5070"),
]
