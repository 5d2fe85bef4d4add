"""Short texts with what pfctl refuses of them, by hand from the grammar of pf.conf(5) and the checks of pfctl.

`⏎` is a newline, and `{N*x}` stands for N times the letter x. What is said has ` | ` between.
"""

ROWS = (
    ("", ""),
    ("pass", ""),
    # port and the protocols before it
    ("pass in proto tcp from any to any port 80", ""),
    ("pass in from any to any port 80", "1:25: port: port without a protocol"),
    ("pass from any port 22 to any port 80", "1:15: port: port without a protocol"),
    ("pass⏎block in to any port 80⏎pass to port 1",
     "2:17: port: port without a protocol | 3:9: port: port without a protocol"),
    ("pass proto { tcp, udp } to any port 80", ""),
    ("pass proto { tcp udp icmp } to any port 80", "1:36: port: port of another protocol"),
    ("pass proto { tcp,⏎ icmp }⏎pass proto { tcp,⏎ icmp } to any port 80", "4:16: port: port of another protocol"),
    ("pass proto { 6, 17 } to any port 80⏎pass proto 6 to port 80", ""),
    ("pass proto 47 to any port 80⏎pass proto gre to any port 80",
     "1:22: port: port of another protocol | 2:23: port: port of another protocol"),
    ("match proto $p to any port 80⏎pass proto { icmp $p } to any port 80", ""),
    ("block proto tcp to any port { 80, 443,⏎ 8080 }", ""),
    ("block to any port { 80,⏎ port }", "1:14: port: port without a protocol"),
    ("pass to any \\⏎ port 80", "2:2: port: port without a protocol"),
    ("pass to any # port 80⏎# pass to any port 80", ""),
    ("pass to any port 80 proto tcp", "1:13: port: port without a protocol"),
    ("pass to { a port 1 }", ""),
    ("pass proto tcp keep state (max 1, port 3)", ""),
    # types of ICMP
    ("pass proto icmp icmp-type echoreq⏎pass proto 1 icmp-type { 0, 8 }", ""),
    ("pass icmp-type echoreq", "1:6: icmp-type: type without a protocol"),
    ("pass proto { icmp, tcp } icmp-type 8", "1:26: icmp-type: type of another protocol"),
    ("pass proto { icmp tcp } to any port 80 icmp-type 8",
     "1:32: port: port of another protocol | 1:40: icmp-type: type of another protocol"),
    ("pass proto { $p tcp } icmp-type 8", ""),
    ("pass to any port 80 icmp-type 8",
     "1:13: port: port without a protocol | 1:21: icmp-type: type without a protocol"),
    # states of rules that block
    ("block in all keep state", "1:14: keep: state of a rule that blocks"),
    ("block return in all modulate state⏎block synproxy state keep state",
     "1:21: modulate: state of a rule that blocks | 2:7: synproxy: state of a rule that blocks"),
    ("pass keep state⏎match keep state⏎block no state⏎block label keep state", ""),
    ("block keep", ""),
    # labels
    ("pass label \"{63*a}\"⏎pass label {63*a}", ""),
    ("pass label \"{64*a}\"", "1:12: \"{64*a}\": long label"),
    ("block label {64*b} keep state", "1:13: {64*b}: long label | 1:78: keep: state of a rule that blocks"),
    ("pass label port⏎pass label \"port 80\"", ""),
    ("rdr to any label \"{64*a}\"", ""),
    # translation
    ("rdr on em0 to any port 80 -> 10.0.0.1 port 8080", "1:19: port: port without a protocol"),
    ("rdr on em0 proto tcp to any port 80 -> 10.0.0.1 port 8080⏎nat on em0 from any to any -> em0 port 1024:65535", ""),
    ("rdr on em0 proto icmp from a port 1 to any icmp-type 8", "1:30: port: port of another protocol"),
    ("nat on em0 from any to any port 500 -> em0 static-port⏎binat on em0 proto icmp from a port 1 to any", ""),
    ("rdr keep state", ""),
    # other statements
    ("port = \"80\"⏎table <port> { 10.0.0.1 }⏎set skip on port", ""),
    ("x = \"pass to any port 80\"⏎no nat to any port 80⏎scrub in to any port 80", ""),
    ("anchor a to any port 80⏎anchor b", ""),
    # anchors
    ("anchor \"a\" in on { em0,⏎ em1 } {⏎ pass to any port 80⏎ block proto { tcp }⏎}⏎block keep state",
     "3:14: port: port without a protocol | 6:7: keep: state of a rule that blocks"),
    ("anchor a {⏎ anchor b {⏎  pass icmp-type 8⏎ }⏎ pass to port 1⏎}",
     "3:8: icmp-type: type without a protocol | 5:10: port: port without a protocol"),
    # braces that aren't closed, or close nothing
    ("pass to any port 80⏎pass to { a", ""),
    ("pass to any port 80⏎}", ""),
)
