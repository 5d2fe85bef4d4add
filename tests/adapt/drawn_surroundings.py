"""Random surroundings, and the words that they give."""

from adapt.surroundings import Surroundings

INTERFACES = (("em1", "10.0.0.1/24"), ("em2", "198.51.100.2/30"), ("ppp0", "203.0.113.9/32"))
GROUPS = (("egress", "em0"), ("lan", "em1"), ("dmz", "em1"), ("dmz", "em2"), ("tun", "tun0"))
HOSTS = (b"10.0.0.5 www.example.com gw # the first\n10.0.0.6 mail\n", b"# mail twice\n10.0.0.7\tmail mx2\n",
         b"::1 localhost6\n127.0.0.1 localhost\n", b"10.0.0.9 printer-1\n10.0.0.10 www.example.com")
SERVICES = (b"squid 3128/tcp proxy # web\nsquid 3128/udp\n", b"game 7001/udp gameserver\ngame 7002/tcp\n",
            b"imaps 9993/tcp\n# imaps 1/tcp\n", b"webmin\t10000/tcp")
FILES = (("f2b-sshd", b"10.1.1.1\n10.1.1.2 # twice\n"), ("bogons", b"0.0.0.0/8 127/8\n; none\n::/8\n169.254/16\n"),
         ("bad.hosts", b"mail\nwww.example.com !10.0.0.1\n"), ("t", b"# nothing\n"), ("u", b"em1:network"))
# words that may be given
ADDRESSES = ("em1", "em1:0", "em1:network", "em1:broadcast", "em2:network", "ppp0", "egress", "egress:network", "lan",
             "lan:network", "dmz", "dmz:0", "www.example.com", "gw", "mail", "mx2", "printer-1", "localhost")
GROUP_NAMES = ("egress", "lan", "dmz", "tun", "em0")
SERVICE_NAMES = ("squid", "proxy", "game", "gameserver", "imaps", "webmin", "webmin:10010", "1:squid", "game:game")


def drawn_surroundings(random):
    """Some of these, or most."""
    share = random.choice((0.5, 0.9, 1))

    def some(every):
        return tuple(one for one in every if random.random() < share)

    return Surroundings(some(INTERFACES), some(GROUPS), some(HOSTS), some(SERVICES), some(FILES))


def hostile_surroundings(random):
    """Surroundings of which some files hold anything."""
    drawn = drawn_surroundings(random)
    junk = bytes(random.choices(b"\x00\xff \t\n\r#;/.:109ax", k=random.randint(0, 200)))
    lines = (b"10.0.0.256 www.example.com\n10.0.0 mail\n10.0.0.1/24 gw\n10.0.0.1\n\n # \n10.0.0.1 " + b"x" * 300,
             b"squid 65536/tcp\nsquid 3128/sctp\nproxy /tcp\ngame 3128\nwebmin 0/udp x x\n99/tcp\n", junk)
    return drawn._replace(hosts=(*drawn.hosts, random.choice(lines)), services=(*drawn.services, random.choice(lines)))
