"""Rulesets with macros, tables, antispoof, pools and surroundings, and the same ones in the strict language by hand."""

from typing import NamedTuple


class Row(NamedTuple):
    """A text of the folder `texts`, a capture of the examples, the networks of the inside and the strict ruleset."""
    name: str
    capture: str
    inside: str
    strict: str


WRITTEN = (
    Row("home_gateway", "home", "10.0.0.0/24", """
        set block-policy return
        set skip on lo0
        nat on em0 from 10.0.0.0/24 to any -> 192.0.2.1
        rdr on em1 proto tcp from 10.0.0.0/24 to !10.0.0.0/24 port 21 -> 127.0.0.1 port 8021
        block drop in quick on !lo0 from 127.0.0.0/8
        block drop in quick on !em1 from 10.0.0.0/24
        block drop in quick from 10.0.0.1
        block drop in quick on !em0 from 192.0.2.0/24
        block drop in quick from 192.0.2.1
        block in quick on em0 from { 127.0.0.0/8 192.168.0.0/16 172.16.0.0/12 10.128.0.0/9 169.254.0.0/16 \
            192.0.2.128/25 0.0.0.0/8 240.0.0.0/4 }
        block return out quick on em0 to { 127.0.0.0/8 192.168.0.0/16 172.16.0.0/12 10.128.0.0/9 169.254.0.0/16 \
            192.0.2.128/25 0.0.0.0/8 240.0.0.0/4 }
        block
        pass quick proto { 6 17 } from 10.0.0.0/24 to port { 53 123 500 }
        pass proto icmp icmp-type { 8 3 }
        pass proto tcp from 10.0.0.0/24 to port { 22 53 110 113 119 80 443 446 2401 2628 5999 8000 8080 } flags S/SA
        pass in on em1 proto tcp from 10.0.0.0/24 to 10.0.0.1 port { 22 53 }
        pass out on em1 from em0 to 10.0.0.0/24
        pass in on em0 proto tcp to { em0 em0:0 } port 22
        """),
    Row("pfsense_names", "home", "10.0.0.0/24", """
        set skip on pfsync0
        set limit states 97000
        table <a>
        table <b> { 0.0.0.0/8 127.0.0.0/8 192.0.0.0/24 203.0.113.0/24 240.0.0.0/4 }
        table <c> { 198.51.100.7 198.51.100.9 }
        table <d> { 203.0.113.64/26 }
        no nat proto 112
        no rdr proto 112
        nat on em0 from { 127.0.0.0/8 10.0.0.0/24 } to port 500 -> 192.0.2.1 static-port
        nat on em0 from { 127.0.0.0/8 10.0.0.0/24 } to any -> 192.0.2.1 port 1024:65535
        rdr on em0 proto tcp to 192.0.2.1 port 8080 -> 10.0.0.40 port 80
        block in quick from 169.254.0.0/16
        block in
        block out
        block in quick proto tcp from <a> to em0 port 22
        block in quick from <a>
        block in quick on em0 from <b>
        pass in quick on em1 proto udp from port 68 to 255.255.255.255 port 67
        pass in quick on lo0
        pass out allow-opts
        pass out from 192.0.2.1 to !192.0.2.0/24 allow-opts
        block return in quick on em0 from <d>
        pass in quick on em0 proto udp from <c> to 192.0.2.1 port 1194
        pass in quick on em0 proto tcp to { 10.0.0.40 10.0.0.41 } port { 554:555 80 8000 } flags S/SA
        pass in quick on em1 from 10.0.0.0/24 to !<a>
        pass in quick on em1 proto tcp from 10.0.0.0/24 to 192.0.2.25 port { 587 993 25 }
        """),
    Row("fail2ban_jails", "server", "192.0.2.1", """
        set skip on lo0
        table <jail>
        table <blocked> { 198.51.100.0/25 203.0.113.0/24 198.51.100.200 }
        table <trusted> { 198.51.100.140 198.51.100.141 198.51.100.142 198.51.100.143 }
        block in quick on !em0 from 192.0.2.0/24
        block in quick from 192.0.2.1
        block in on em0
        block in quick on em0 proto tcp from <jail> to port 22
        block return in quick on em0 proto tcp from { <jail> <jail> <jail> } to port { 25 587 465 143 993 4190 }
        block in quick on em0 from { <blocked> !<trusted> } to em0 port { 1:1023 < 22 > 60000 }
        anchor in on em0 proto tcp to em0 port { 25 587 465 143 993 4190 } {
            pass from <trusted>
            pass proto tcp flags S/SA
        }
        pass in on em0 proto tcp from <trusted> to em0 port 22
        pass in on em0 proto icmp icmp-type { 8 3 code 4 11 }
        pass out on em0 proto { 6 17 } from em0
        """),
    Row("relayd_ftp_gateway", "home", "10.0.0.0/24", """
        set skip on lo0
        nat on em0 from 10.0.0.0/24 to any -> em0 static-port
        rdr pass on { em1 em2 } proto tcp from 10.0.0.0/24 to port 21 -> 127.0.0.1 port 8021
        rdr on em0 proto tcp to 192.0.2.1 port { 80 443 } -> 10.0.0.11 port 3128
        block in on !lo0 from 127.0.0.0/8
        block in on !em1 from 10.0.0.0/24
        block in from 10.0.0.1
        block in on em0
        block quick proto { tcp udp } to port 137:139
        pass in on { em1 em2 } from 10.0.0.0/24 to { !10.0.0.1 any }
        anchor out on em0 from { 192.0.2.1 10.0.0.0/24 } {
            pass flags S/SA
            pass proto icmp
            block in quick on !em1 from 10.0.0.0/24
            block in quick from 10.0.0.1
        }
        pass in on em0 proto tcp to { 10.0.0.11 10.0.0.12 } port 3128 flags S/SA
        pass out on { em1 em2 } proto tcp to { 10.0.0.11 10.0.0.12 } port { 3128 3129 3130 }
        """),
    Row("web_farm", "server", "192.0.2.1", """
        set skip on { lo0 ix0 ix1 }
        set timeout { tcp.first 30 tcp.opening 5 tcp.established 18000 tcp.closing 60 tcp.finwait 30 tcp.closed 30 }
        table <farm> { 10.0.0.11 10.0.0.12 10.0.0.13 }
        table <api> { 10.0.0.20 }
        binat on em0 from 10.0.0.25 to any -> 192.0.2.25
        nat on em0 from 10.0.0.0/24 to any -> 192.0.2.8 static-port
        nat on em0 from 10.0.1.0/24 to any -> 192.0.2.16 port 1024:2049
        nat on em0 from 10.0.2.0/24 to any -> 192.0.2.32
        rdr on em0 proto tcp to 192.0.2.1 port { 80 443 } -> 10.0.0.11 port 8080
        rdr on em0 proto tcp from { 198.51.100.0/24 198.18.0.9 } to 192.0.2.1 port 22 -> 192.0.2.1 port 2022
        rdr on em0 proto tcp to 192.0.2.1 port 8443 -> 10.0.0.20 port 443
        block in on em0
        pass in on em0 proto tcp to { 10.0.0.11 10.0.0.12 10.0.0.13 } port 8080
        pass in on em0 proto tcp from { 198.51.100.0/24 198.18.0.9 } to 192.0.2.1 port 2022
        pass in on em0 proto tcp to <api> port 443
        pass out on em0 from <farm>
        pass out on { ix0 ix1 } to { 10.0.0.11 10.0.0.12 10.0.0.13 !10.0.0.20 }
        """),
    Row("opnsense_lan", "home", "10.0.0.0/24", """
        set skip on { lo0 pfsync0 }
        set limit states 804000
        table <bogons> { 0.0.0.0/8 10.0.0.0/8 169.254.0.0/16 192.0.2.0/24 }
        table <none>
        no nat proto 112
        nat on em0 from 10.0.0.0/24 to port 500 -> 192.0.2.1 static-port
        nat on em0 from 10.0.0.0/24 to any -> 192.0.2.1 port 1024:65535
        nat on em0 from 127.0.0.0/8 to any -> 192.0.2.1 port 1024:65535
        no rdr proto 112
        no rdr on em1 proto tcp to 10.0.0.1 port { 22 80 443 }
        rdr on em0 proto tcp to 192.0.2.1 port 993 -> 10.0.0.30 port 993
        rdr on em0 proto tcp to 192.0.2.1 port 443 -> 10.0.0.40
        block in on !em1 from 10.0.0.0/24
        block in from 10.0.0.1
        block in
        block in quick from <none> to em0 port 22
        block in quick on em0 from <bogons>
        pass in quick on em1 proto udp from port 68 to 255.255.255.255 port 67
        pass in quick on em1 proto udp from port 68 to em0 port 67
        pass in quick on em1 proto tcp to em0 port { 22 80 443 }
        pass out from em0 to !em0:network allow-opts
        pass in quick on em0 proto tcp to 10.0.0.30 port 993
        pass in quick on em1 from 10.0.0.0/24 to { <none> !<none> }
        """),
)
