"""Captures of both interfaces of the gateway, as tcpdump takes them."""

import re
import signal
import subprocess
import time
from contextlib import ExitStack, contextmanager

from gateway.network import STATIONS, LeftOut, within

# packets are written as they come, and none waits in a buffer
TCPDUMP = ("tcpdump", "-n", "-s", "0", "-U", "--immediate-mode", "-B", "16384")
# seconds in which what was sent has to be in the captures
PATIENCE = 10


class Taker:
    """The processes of tcpdump, with the files into which they write, by interfaces."""

    def __init__(self, processes, files):
        self.processes = processes
        self.files = files

    def captures(self):
        """The bytes that are there by now."""
        return {interface: file.read_bytes() for interface, file in self.files.items()}

    def wait_for(self, is_whole):
        """Waits until a function finds the captures whole."""
        end = time.monotonic() + PATIENCE
        while not is_whole(self.captures()):
            if time.monotonic() > end:
                raise SystemExit("the last packets aren't in the captures")
            time.sleep(0.05)

    def end(self):
        """Ends both. Where the kernel has kept packets back the captures are worth nothing."""
        for interface, process in self.processes.items():
            process.send_signal(signal.SIGINT)
            said = process.communicate()[1].decode(errors="replace")
            if not re.search(r"^0 packets dropped by kernel", said, re.MULTILINE):
                raise SystemExit(f"tcpdump on {interface}: {said}")


@contextmanager
def taking(network, folder):
    """Captures that are being taken. Behind this nothing is written into them."""
    with ExitStack() as stack:
        files = {interface: folder / f"{interface}.pcap" for interface in STATIONS}
        processes = {}
        for interface, file in files.items():
            words = within(network.gateway, *TCPDUMP, "-i", interface, "-w", "-")
            out = stack.enter_context(open(file, "wb"))
            process = stack.enter_context(
                subprocess.Popen(words, stdin=subprocess.DEVNULL, stdout=out, stderr=subprocess.PIPE))
            stack.callback(process.kill)
            processes[interface] = process
        for interface, process in processes.items():
            said = process.stderr.readline().decode(errors="replace")
            if "listening on" not in said:
                raise LeftOut(f"tcpdump on {interface}: {said}")
        yield Taker(processes, files)
