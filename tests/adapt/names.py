"""The words of "Rulesets as they are written", and of "Words with a meaning", as FORMATS has them."""

GRAMMAR = frozenset(b"""
    table persist const counters set skip on timeout limit states frags src-nodes table-entries tables block-policy
    drop return state-policy if-bound floating hostid optimization normal require-order loginterface debug
    ruleset-optimization interval frag src.track pass block in out log quick inet proto all from to port any self
    flags icmp-type code no state keep no-sync max allow-opts label anchor nat-anchor rdr-anchor binat-anchor nat rdr
    binat static-port
    """.split())

# words that are left out in the strict language, and names for numbers that it has: no macro or table has such a name
TAKEN = GRAMMAR | frozenset(b"""
    scrub altq queue antispoof load include route-to reply-to dup-to tag tagged user group os tos probability fragment
    modulate synproxy sloppy max-src-nodes max-src-states max-src-conn max-src-conn-rate overload source-track
    bitmask random source-hash round-robin sticky-address file inet6 icmp6-type return-rst return-icmp return-icmp6
    no-route urpf-failed
    icmp igmp tcp udp gre esp ah
    ftp ssh telnet smtp domain http www pop3 ntp imap snmp https
    echorep unreach redir echoreq timex paramprob
    """.split())


def numbered(text):
    """Names with their numbers, as bytes: `NAME NUMBER, NAME NUMBER`."""
    return dict(pair.split() for pair in text.encode().split(b","))


PROTOCOLS = numbered("""
    ipencap 4, igp 9, rdp 27, ipv6 41, ipv6-route 43, ipv6-frag 44, rsvp 46, mobile 55, ipv6-icmp 58, icmp6
    58, ipv6-nonxt 59, ipv6-opts 60, eigrp 88, ospf 89, ipip 94, etherip 97, encap 98, pim 103, ipcomp 108, carp
    112, vrrp 112, l2tp 115, sctp 132, udplite 136, pfsync 240
    """)
SERVICES = numbered("""
    tcpmux 1, echo 7, discard 9, systat 11, daytime 13, qotd 17, chargen 19, ftp-data 20, time 37, whois 43, tacacs
    49, bootps 67, bootpc 68, tftp 69, gopher 70, finger 79, kerberos 88, sunrpc 111, auth 113, ident 113, sftp 115,
    nntp 119, netbios-ns 137, netbios-dgm 138, netbios-ssn 139, snmptrap 162, xdmcp 177, bgp 179, irc 194, ldap 389,
    svrloc 427, microsoft-ds 445, smtps 465, isakmp 500, exec 512, login 513, shell 514, syslog 514, printer 515,
    talk 517, ntalk 518, router 520, uucp 540, klogin 543, kshell 544, afpovertcp 548, rtsp 554, nntps 563,
    submission 587, ipp 631, ldaps 636, rsync 873, ftps-data 989, ftps 990, telnets 992, imaps 993, ircs 994, pop3s
    995, socks 1080, openvpn 1194, radius 1812, radacct 1813, nfsd 2049, mysql 3306, svn 3690, sip 5060, postgresql
    5432
    """)
# services that the strict language has
STRICT_SERVICES = numbered("""
    ftp 21, ssh 22, telnet 23, smtp 25, domain 53, http 80, www 80, pop3 110, ntp 123, imap 143, snmp 161, https 443
    """)
ICMP = numbered("""
    squench 4, althost 6, routeradv 9, routersol 10, timereq 13, timerep 14, inforeq 15, inforep 16, maskreq 17,
    maskrep 18, trace 30, dataconv 31, mobredir 32, ipv6-where 33, ipv6-here 34, mobregreq 35, mobregrep 36,
    photuris 40, net-unr 0, host-unr 1, proto-unr 2, port-unr 3, needfrag 4, srcfail 5, net-unk 6, host-unk 7,
    isolate 8, net-prohib 9, host-prohib 10, net-tos 11, host-tos 12, filter-prohib 13, host-preced 14,
    cutoff-preced 15, redir-net 0, redir-host 1, redir-tos-net 2, redir-tos-host 3, normal-adv 0, common-adv 16,
    transit 0, reassemb 1, badhead 0, optmiss 1, badlen 2, unknown-ind 1, auth-fail 2, decrypt-fail 3
    """)

# statements that are left out whole, by their first word
QUEUES = (b"altq", b"queue")
SETTINGS = (b"fingerprints", b"syncookies", b"keepcounters", b"fail-policy")
JUDGED_SETTINGS = (b"reassemble", b"state-defaults")
ANCHOR_LIMITS = (b"anchors", b"eth-anchors")
SIX = (b"inet6", b"icmp6-type")
RULES = (b"pass", b"block", b"match", b"nat", b"rdr", b"binat", b"no")
# rules of which it is said that pfctl refuses them, and those of packets that pass or don't
REMARKED = (b"pass", b"block", b"match", b"rdr")
FILTERS = (b"pass", b"block", b"match")
ANCHORS = (b"anchor", b"nat-anchor", b"rdr-anchor", b"binat-anchor")
# rules that are left out whole, by any of their words
JUDGED = (b"tagged", b"user", b"group", b"os", b"probability", b"fragment", b"tos", b"received-on")
# hosts of rules that are left out whole, and of lists that lose them
ROUTELESS = (b"no-route", b"urpf-failed")

# behind these stand addresses, and these words of the grammar don't end them
BEFORE_ADDRESSES = (b"from", b"to", b"->", b"table")
BEFORE_NETWORKS = (b"from", b"to", b"table")
AMONG_ADDRESSES = (b"any", b"self", b"persist", b"const", b"counters")

# words of a rule that go with a value, and the one that goes alone
TARGETS = (b"route-to", b"reply-to", b"dup-to")
ROUTES = (*TARGETS, b"rtable")
RULE_QUEUES = (b"queue", b"dnpipe", b"dnqueue")
NUMBERS = (b"ridentifier", b"tracker")
ALONE = b"fastroute"
ANSWERS = (b"return-rst", b"return-icmp", b"return-icmp6")

# options of states with a value
LIMITS = (b"max-src-nodes", b"max-src-states", b"max-src-conn")
RATE = b"max-src-conn-rate"
TIMEOUTS = tuple(b"""
    tcp.first tcp.opening tcp.established tcp.closing tcp.finwait tcp.closed udp.first udp.single udp.multiple
    icmp.first icmp.error other.first other.single other.multiple interval frag src.track adaptive.start adaptive.end
    """.split())

ADAPTIVE = (b"adaptive.start", b"adaptive.end")

# how a pool picks one of its addresses
POOLS = (b"round-robin", b"random", b"bitmask", b"sticky-address", b"source-hash")

OPTIMIZED = ("tcp.first", "tcp.opening", "tcp.established", "tcp.closing", "tcp.finwait", "tcp.closed")
OPTIMIZATIONS = {
    b"aggressive": (30, 5, 18000, 60, 30, 30),
    b"conservative": (3600, 900, 432000, 3600, 600, 180),
    b"satellite": (180, 35, 86400, 905, 50, 95),
    b"high-latency": (180, 35, 86400, 905, 50, 95),
}

# rewritings of which the same is said
REASONS = (
    ("protocol", "service", "ICMP type", "ICMP code", "range of services", "given service", "several given services"),
    ("given address", "several given addresses", "given address in brackets"),
    ("given group", "several given groups"),
    ("list as a target", "network as a target", "range as a target", "pick of a target"),
)


def reason_of(done):
    """The reason that is told of a rewriting: the first of those with the same."""
    return next((reasons[0] for reasons in REASONS if done in reasons), done)


# all that is rewritten: what a comparison has to have seen
REWRITINGS = (
    "queue statement", "scrub", "setting", "judged setting", "optimization", "adaptive timeouts",
    "adaptive timeout in braces", "anchor limits", "anchor limit in braces", "IPv6 rule", "IPv6 hosts alone", "no-route alone", "judged word",
    "modulate", "synproxy", "answer", "log", "route", "queue", "number of a rule", "tag", "set in a rule",
    "second label", "option of states", "protocol", "service", "ICMP type", "ICMP code", "short network",
    "range of services", "(self)", "IPv6 address in a list", "no-route in a list", "given address",
    "several given addresses", "given address in brackets", "given service", "several given services", "given group",
    "several given groups", "macro", "macro where none may stand", "name of a table", "file of a table",
    "entry of a file", "antispoof", "list as a target", "network as a target", "range as a target",
    "pick of a target",
)
