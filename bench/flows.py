#!/usr/bin/env python3
"""Measures the program with stateful rules beside tcpdump and tcprewrite and prints two tables.

    flows.py [PROGRAM] [--packets N ..] [--states K ..]
    flows.py [PROGRAM] [--packets N ..] --nat
    flows.py [PROGRAM] [--packets N ..] --messages [--before PROGRAM]

The first is of captures of many flows at once, the second of runs that have K states at their end: their memory, and
their speed beside tcprewrite's. With --nat it prints a third one instead, of captures of many flows that the ruleset
translates. There it measures the program beside itself without translation, on captures of as many packets, and beside
tcprewrite. With --messages it prints a fourth one instead, of runs that tell a standby in a file: beside the same runs
without, and these beside another program, which may know no messages.
"""

import argparse
import sys
import tempfile
from collections import Counter
from pathlib import Path

sys.dont_write_bytecode = True

from make_flows import REDIRECTED, write_flows, write_translated_flows
from running import (MEGABYTE, OUTPUTS, best_seconds, count_lines, count_records, goal_line, load_printed, need_tools,
                     outcomes, peak_memory, print_head, print_row, replay_command, seconds, tcpdump_command,
                     words_with_program, written)

# ten rules that make states; the filter passes the packets that they and their states pass
RULES = """\
block all
pass out proto tcp from 10.0.0.0/8 to any port 80 keep state
pass out proto tcp from 10.0.0.0/8 to any port 443 keep state
pass out proto tcp from 10.0.0.0/8 to any port 22 keep state
pass out proto tcp from 10.0.0.0/8 to any port 993 keep state
pass out proto udp from 10.0.0.0/8 to any port 53 keep state
pass out proto udp from 10.0.0.0/8 to any port 123 keep state
pass out inet proto icmp from 10.0.0.0/8 to any icmp-type echoreq keep state
pass in proto tcp from any to 10.1.0.0/16 port 25 keep state
pass in proto tcp from any to 10.1.0.0/16 port 443 keep state
pass in inet proto icmp from any to 10.1.0.0/16 icmp-type echoreq keep state
"""
# the same behind a translation: the filter sees the firewall's address as the source of what goes out, and the servers'
# as the destinations of what comes in
TRANSLATED_RULES = "".join((
    "nat on em0 from 10.0.0.0/8 to any -> em0\n",
    *(f"rdr on em0 proto tcp from any to em0 port {port} -> {server} port {service}\n"
      for port, (server, service) in REDIRECTED.items()),
    RULES.replace("from 10.0.0.0/8", "from em0")))
# where nothing is in brackets, tcpdump's words bind from left to right
FILTER = " ".join("""
(tcp and ((src net 10.0.0.0/8 and dst port (80 or 443 or 22 or 993))
       or (dst net 10.0.0.0/8 and src port (80 or 443 or 22 or 993))
       or (dst net 10.1.0.0/16 and dst port (25 or 443))
       or (src net 10.1.0.0/16 and src port (25 or 443))))
or (udp and ((src net 10.0.0.0/8 and dst port (53 or 123)) or (dst net 10.0.0.0/8 and src port (53 or 123))))
or (icmp and (icmp[icmptype] = icmp-echo or icmp[icmptype] = icmp-echoreply))
""".split())
# each inside address becomes another one, so each packet has its checksums mended
REWRITE = ["--fixcsum", "--pnat=10.0.0.0/8:172.16.0.0/12"]
# and what comes in has no inside address, but the firewall's
REWRITE_TRANSLATED = ["--fixcsum", "--pnat=10.0.0.0/8:172.16.0.0/12,192.0.2.1/32:172.32.0.1/32"]
PACKETS = [10**4, 10**5, 10**6]
STATES = [1000, 10000, 30000]
# the two lengths of capture whose memory stands side by side
SHORT, LONG = 10**5, 10**6
# on the long one, of the packets a second without translation and of those of tcprewrite
GOALS = 0.85, 1.25
# of the packets a second without messages, and of another program's without
MESSAGE_GOALS = 0.9, 0.97


class Contest:
    """One capture and the commands that are measured on it."""

    def __init__(self, folder, program, count, stay=None):
        self.count = count
        self.capture = folder / "capture.pcap"
        self.files = {name: folder / name for name in OUTPUTS}
        self.passed, self.rewritten = folder / "passed.pcap", folder / "rewritten.pcap"
        rules = folder / "rules"
        rules.write_text(RULES)
        written(self.capture, write_flows, count, stay)
        self.program = replay_command(program, self.capture, rules, **self.files)
        # the same run without what it writes
        self.silent = replay_command(program, self.capture, rules)
        self.tcpdump = tcpdump_command(self.capture, self.passed, FILTER)
        self.tcprewrite = tcprewrite_command(self.capture, self.rewritten, REWRITE)

    def states(self):
        """How many states there are at the end of the program's run."""
        return count_lines(self.files["states"])

    def check(self):
        """The program and tcpdump have passed the same number of packets, and the other two have all of them."""
        verdicts = self.files["verdicts"].read_bytes()
        passed = verdicts.count(b" pass ")
        kept, rewritten = (count_records(path.read_bytes()) for path in (self.passed, self.rewritten))
        if verdicts.count(b"\n") != self.count or rewritten != self.count or passed != kept:
            sys.exit(f"of {self.count} packets the program passes {passed}, tcpdump {kept}; tcprewrite has {rewritten}")


class TranslatedContest:
    """One capture of flows that are translated and the commands that are measured on it, and the program on one of as
    many packets of flows that aren't."""

    def __init__(self, folder, program, count):
        self.count = count
        self.capture, self.rewritten = folder / "translated.pcap", folder / "rewritten.pcap"
        self.files = {name: folder / f"translated {name}" for name in OUTPUTS}
        rules = folder / "translated rules"
        rules.write_text(TRANSLATED_RULES)
        self.expected = Counter(written(self.capture, write_translated_flows, count))
        self.untranslated = Contest(folder, program, count)
        self.program = replay_command(program, self.capture, rules, **self.files)
        # the same run without what it writes
        self.silent = replay_command(program, self.capture, rules)
        self.tcprewrite = tcprewrite_command(self.capture, self.rewritten, REWRITE_TRANSLATED)

    def states(self):
        """How many states there are at the end of the program's run."""
        return count_lines(self.files["states"])

    def check(self):
        """Each packet has come to what it should, and the other two have all of them."""
        found = outcomes(self.files["verdicts"])
        if found != self.expected:
            sys.exit(f"of {self.count} packets came {found}, not {self.expected}")
        plain = count_lines(self.untranslated.files["verdicts"])
        rewritten = count_records(self.rewritten.read_bytes())
        if plain != self.count or rewritten != self.count:
            sys.exit(f"of {self.count} packets the program has {plain} without translation, tcprewrite {rewritten}")


class ToldContest:
    """One capture of many flows, and the program on it with messages in a file and without."""

    def __init__(self, folder, program, count, before):
        self.without = Contest(folder, program, count)
        self.count = count
        self.messages = folder / "messages"
        files = {name: folder / f"told {name}" for name in OUTPUTS}
        self.files = files
        rules = folder / "rules"
        self.program = replay_command(program, self.without.capture, rules, **files)
        self.program += ["--messages", str(self.messages)]
        self.before = replay_command(before, self.without.capture, rules, **self.without.files) if before else None

    def check(self):
        """The other outputs are the same with messages and without."""
        for name in OUTPUTS:
            if self.files[name].read_bytes() != self.without.files[name].read_bytes():
                sys.exit(f"the {name} of {self.count} packets are others where a standby is told")


def tcprewrite_command(capture, rewritten, rewrite):
    """The words that rewrite a capture."""
    return ["tcprewrite", f"--infile={capture}", f"--outfile={rewritten}", *rewrite]


def speed_row(folder, program, count):
    """The measures of one capture of many flows, as words."""
    contest = Contest(folder, program, count)
    commands = contest.program, contest.tcpdump, contest.tcprewrite, contest.silent
    times = best_seconds(*commands)
    contest.check()
    ours, theirs, rewriting, silent = times
    peaks = [peak_memory(command) for command in commands[:3]]
    speeds = [f"{count / time:.0f}" for time in times]
    return [f"{count}", f"{contest.capture.stat().st_size / MEGABYTE:.1f}", f"{contest.states()}",
            speeds[0], peaks[0], speeds[1], peaks[1], speeds[2], peaks[2],
            f"{theirs / ours:.2f}", f"{rewriting / ours:.2f}", f"{rewriting / silent:.2f}"]


def translated_row(folder, program, count):
    """The measures of one capture of flows that are translated, as words, and its ratios to the other two."""
    contest = TranslatedContest(folder, program, count)
    commands = contest.program, contest.untranslated.program, contest.tcprewrite, contest.silent
    ours, untranslated, rewriting, silent = best_seconds(*commands)
    contest.check()
    words = [f"{count}", f"{contest.capture.stat().st_size / MEGABYTE:.1f}", f"{contest.states()}"]
    for command, time in zip(commands, (ours, untranslated, rewriting)):
        words += [f"{count / time:.0f}", peak_memory(command)]
    ratios = untranslated / ours, rewriting / ours
    return [*words, *(f"{ratio:.2f}" for ratio in (*ratios, rewriting / silent))], ratios


def told_row(folder, program, count, before):
    """The measures of one capture with messages and without, as words, and the ratios."""
    contest = ToldContest(folder, program, count, before)
    commands = contest.program, contest.without.program, *([contest.before] if before else [])
    told, untold, *others = best_seconds(*commands)
    contest.check()
    ratios = untold / told, *(other / untold for other in others)
    words = [f"{count}", f"{contest.without.states()}", f"{contest.messages.stat().st_size / MEGABYTE:.1f}"]
    for command, time in zip(commands, (told, untold)):
        words += [f"{count / time:.0f}", peak_memory(command)]
    return [*words, *(f"{ratio:.2f}" for ratio in ratios)], ratios


def standing_row(folder, program, states):
    """The memory of two runs that end with so many states, and the ratio of the long one to tcprewrite, as words."""
    words = [f"{states}"]
    for count in (SHORT, LONG):
        contest = Contest(folder, program, count, states)
        seconds(contest.program)
        if contest.states() != states:
            sys.exit(f"{contest.states()} states at the end, not {states}")
        words.append(peak_memory(contest.program))
    ours, rewriting = best_seconds(contest.program, contest.tcprewrite)
    return [*words, f"{LONG / ours:.0f}", f"{rewriting / ours:.2f}"]


def print_speeds(folder, program, counts):
    print_head(["packets", "MB", "states at the end", "pfreplay packets/s", "peak MB", "tcpdump packets/s", "peak MB",
                "tcprewrite packets/s", "peak MB", "pfreplay / tcpdump", "/ tcprewrite", "to /dev/null / tcprewrite"])
    for count in counts:
        print_row(speed_row(folder, program, count))


def print_standing(folder, program, numbers):
    print()
    print_head(["states", f"peak MB, {SHORT} packets", f"peak MB, {LONG} packets", "pfreplay packets/s",
                "/ tcprewrite"])
    for states in numbers:
        print_row(standing_row(folder, program, states))


def print_translated(folder, program, counts):
    print_head(["packets", "MB", "states at the end", "pfreplay packets/s", "peak MB", "untranslated packets/s",
                "peak MB", "tcprewrite packets/s", "peak MB", "pfreplay / untranslated", "/ tcprewrite",
                "to /dev/null / tcprewrite"])
    for count in counts:
        words, ratios = translated_row(folder, program, count)
        print_row(words)
        if count == LONG:
            print_goals(ratios)


def print_told(folder, program, counts, before):
    print_head(["packets", "states at the end", "MB of messages", "with messages packets/s", "peak MB",
                "without packets/s", "peak MB", "with / without", *(["without / the other program"] if before else [])])
    for count in counts:
        words, ratios = told_row(folder, program, count, before)
        print_row(words)
        if count == LONG:
            print_goals(ratios, ("the packets a second without", "the other program's"), MESSAGE_GOALS)


def print_goals(ratios, others=("the untranslated packets a second", "tcprewrite's"), goals=GOALS):
    for other, goal, ratio in zip(others, goals, ratios):
        print(f"{ratio:.3f} of {other}, {goal_line(f'{goal:.2f}', ratio >= goal)}")


def main():
    parser = argparse.ArgumentParser(description="Measures the program with stateful rules.")
    parser.add_argument("--packets", type=int, nargs="*", default=PACKETS)
    parser.add_argument("--states", type=int, nargs="*", default=STATES)
    parser.add_argument("--nat", action="store_true", help="prints the table of flows that are translated, alone")
    parser.add_argument("--messages", action="store_true", help="prints the table of runs that tell a standby, alone")
    parser.add_argument("--before", type=Path, help="another program, beside which runs without messages are measured")
    words = words_with_program(parser)
    need_tools(*(() if words.messages else ("tcprewrite",) if words.nat else ("tcpdump", "tcprewrite")))
    program = words.program
    with load_printed(), tempfile.TemporaryDirectory() as name:
        folder = Path(name)
        if words.messages:
            print_told(folder, program, words.packets, words.before and words.before.resolve())
        elif words.nat:
            print_translated(folder, program, words.packets)
        else:
            if words.packets:
                print_speeds(folder, program, words.packets)
            if words.states:
                print_standing(folder, program, words.states)


if __name__ == "__main__":
    main()
