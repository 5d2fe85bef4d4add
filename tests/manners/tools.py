"""What tools say of the man page and of the completions. Each one that isn't there is left out."""

import os
import shutil
import subprocess

from manners.documents import BASH, KSH, PAGE, ZSH
from manners.helps import HELP, expect_words

# seconds; other comparisons may run at the same time
TIME_LIMIT = 60
# those that the man page refers to, which a machine need not have
MANUALS = ("diff.1", "tcpdump.1", "pcap.3", "pf.4", "pflog.4", "pfsync.4", "hosts.5", "pf.conf.5", "services.5",
           "pfctl.8")
# completes the last of some words, as bash calls the function that is registered
COMPLETE = """
source "$0"
[[ $(complete -p pfreplay) =~ -F\\ ([^\\ ]+) ]]
COMP_WORDS=("$@") COMP_CWORD=$(($# - 1))
"${BASH_REMATCH[1]}"
[ ${#COMPREPLY[@]} = 0 ] || printf '%s\\n' "${COMPREPLY[@]}"
"""
FILES = ("office.pcap", "rules.conf", "two words.pcap")
TAPS, CAPTURE = {"stack", "wire"}, {"office.pcap"}
FORMATS, VERDICTS = {"text", "json", "pflog"}, {"pass", "block", "return", "skip"}
# words behind the program's name as bash cuts them, and what completes the last one
CASES = (
    (("run", "--tap", ""), TAPS),
    (("run", "--tap", "="), TAPS),
    (("run", "--tap", "=", "w"), {"wire"}),
    (("run", "--ta"), {"--tap", "--table"}),
    (("run", "--p"), {"--packets", "--peer", "--progress"}),
    (("run", "of"), CAPTURE),
    (("run", "--warn", "of"), CAPTURE),
    (("run", "office.pcap", ""), {*FILES}),
    (("run", "--mac", "em0", "=", "00", ":", "00", "--verdicts", "tw"), {"two words.pcap"}),
    (("run", "--also", "em1,192.0.2.1/24,of"), {"em1,192.0.2.1/24,office.pcap"}),
    (("run", "--also", "em1,192.0.2.1/24,a,of"), {"em1,192.0.2.1/24,a,office.pcap"}),
    (("run", "--also", "em1,192.0.2.1/24,a,b,of"), set()),
    (("run", "--seed", ""), set()),
    (("check", "--also", "em1,192.0.2.1/24,of"), set()),
    (("check", "--also", "em1,192.0.2.1/24", "ru"), {"rules.conf"}),
    (("check", "rules.conf", "--table", "bad", "="), {*FILES}),
    (("check", "rules.conf", "--table", "bad", "=", "of"), CAPTURE),
    (("adapt", "rul"), {"rules.conf"}),
    (("adapt", "--also", "em1,192.0.2.1/24,of"), set()),
    (("standby", ""), set()),
    (("standby", "--messages", "of"), CAPTURE),
    (("states", "--j"), {"--json"}),
    (("states", "ru"), {"rules.conf"}),
    (("rules", "--also", "em1,192.0.2.1/24,of"), set()),
    (("rules", "rules.conf", "--counters", "tw"), {"two words.pcap"}),
    (("rules", "rules.conf", "--adapt", "--hosts", "=", "ru"), {"rules.conf"}),
    (("diff", "of"), CAPTURE),
    (("diff", "office.pcap", "rules.conf", ""), {*FILES}),
    (("diff", "--verdicts", "of"), CAPTURE),
    (("diff", "--v"), {"--verdicts"}),
    (("diff", "--progress", "of"), CAPTURE),
    (("diff", "--q"), {"--quiet"}),
    (("diff", "--quiet", "of"), CAPTURE),
    (("diff", "--tap", "=", ""), TAPS),
    (("diff", "--f"), {"--format"}),
    (("diff", "--format", ""), {"text", "json"}),
    (("diff", "--format", "=", "j"), {"json"}),
    (("diff", "--format", "json", "of"), CAPTURE),
    (("diff", "--also", "em1,192.0.2.1/24,of"), {"em1,192.0.2.1/24,office.pcap"}),
    (("diff", "--also", "em1,192.0.2.1/24,a,of"), set()),
    (("show", "of"), CAPTURE),
    (("show", "office.pcap", "tw"), {"two words.pcap"}),
    (("show", "office.pcap", "verdicts", "--count", ""), {*FILES}),
    (("show", "--logged", "ru"), {"rules.conf"}),
    (("show", "--l"), {"--line", "--logged"}),
    (("show", "--ho"), {"--host", "--hosts"}),
    (("show", "--format", ""), FORMATS),
    (("show", "--format", "=", "p"), {"pflog"}),
    (("show", "--only", ""), VERDICTS),
    (("show", "--only", "=", "b"), {"block"}),
    (("show", "--only", "block,"), {f"block,{verdict}" for verdict in VERDICTS}),
    (("show", "--only", "pass,block,r"), {"pass,block,return"}),
    (("show", "--rule", ""), set()),
    (("show", "--line", ""), set()),
    (("show", "--host", "of"), set()),
    (("show", "--also", "em1,192.0.2.1/24,of"), {"em1,192.0.2.1/24,office.pcap"}),
    (("show", "--also", "em1,192.0.2.1/24,a,of"), set()),
    (("report", "of"), CAPTURE),
    (("report", "office.pcap", "tw"), {"two words.pcap"}),
    (("report", "office.pcap", "verdicts", ""), {*FILES}),
    (("report", "--progress", "ru"), {"rules.conf"}),
    (("report", "--states", "tw"), {"two words.pcap"}),
    (("report", "--states", "=", ""), {*FILES}),
    (("report", "--s"), {"--services", "--states"}),
    (("report", "--also", "em1,192.0.2.1/24,of"), {"em1,192.0.2.1/24,office.pcap"}),
    (("report", "--also", "em1,192.0.2.1/24,a,of"), set()),
    (("report", "office.pcap", "verdicts", "--progress", ""), {*FILES}),
    (("report", "--pr"), {"--progress"}),
    (("report", "--q"), {"--quiet"}),
    (("report", "--quiet", "ru"), {"rules.conf"}),
    (("run", "--q"), set()),
    (("run", "--progress", "of"), CAPTURE),
    (("run", "--p"), {"--packets", "--peer", "--progress"}),
    (("diff", "--p"), {"--progress"}),
    (("re",), {"report"}),
    (("sh",), {"show"}),
    (("st",), {"standby", "states"}),
    (("ru",), {"run", "rules"}),
    ((HELP, "a"), {"adapt"}),
    ((HELP, "d"), {"diff"}),
    ((HELP, "r"), {"run", "rules", "report"}),
    ((HELP, "s"), {"standby", "states", "show"}),
    (("nothing", "--"), set()),
)


def is_there(tool, left_out, what):
    """Whether there is a tool; if not, what is left out."""
    if shutil.which(tool):
        return True
    left_out.append(f"{what} ({tool})")
    return False


def said_by(words, **settings):
    """What a tool prints on both streams, and its status."""
    done = subprocess.run(list(map(str, words)), stdin=subprocess.DEVNULL, stdout=subprocess.PIPE,
                          stderr=subprocess.STDOUT, text=True, timeout=TIME_LIMIT, check=False, **settings)
    return done.stdout.splitlines(), done.returncode


def lint_page(comparison):
    """The checker of man pages has nothing to say. Manuals that the page refers to are taken to be there."""
    manuals = comparison.folder / "manuals"
    for name in MANUALS:
        manual = manuals / f"man{name[-1]}" / name
        manual.parent.mkdir(parents=True, exist_ok=True)
        manual.touch()
    done = subprocess.run(["mandoc", "-Tlint", "-Wstyle", PAGE], stdin=subprocess.DEVNULL, stdout=subprocess.PIPE,
                          stderr=subprocess.DEVNULL, text=True, timeout=TIME_LIMIT,
                          env={**os.environ, "MANPATH": str(manuals)}, check=False)
    comparison.expect("mandoc -Tlint", ([], 0), (done.stdout.splitlines(), done.returncode))


def completed(words, folder):
    """What bash completes the last of some words to."""
    lines, status = said_by(["bash", "-c", COMPLETE, BASH, "pfreplay", *words], cwd=folder)
    return {*lines} if status == 0 else {f"status {status}", *lines}


def compare_bash(comparison, helps):
    """Bash completes commands, their flags, and values and files behind these."""
    folder = comparison.folder / "completed"
    folder.mkdir()
    for name in FILES:
        (folder / name).touch()
    expect_words(comparison, "bash: pfreplay", helps.commands() | helps.alone, completed([""], folder))
    expect_words(comparison, f"bash: pfreplay {HELP}", {*helps.flags}, completed([HELP, ""], folder))
    for command, values in helps.values.items():
        expect_words(comparison, f"bash: flags of {command}", {*values}, completed([command, "--"], folder))
        for flag, form in values.items():
            # where a value is to stand there is no flag
            expect_words(comparison, f"bash: flags behind {command} {flag}", set() if form else {*values},
                         completed([command, flag, "--"], folder))
    for words, expected in CASES:
        comparison.expect(f"bash: pfreplay {' '.join(words)}", expected, completed(words, folder))


def compare(comparison, helps, left_out):
    compare_bash(comparison, helps)
    comparison.expect("a shell without completion reads the words for ksh", ([], 0), said_by(["sh", "-eu", KSH]))
    if is_there("mandoc", left_out, "the lint of the man page"):
        lint_page(comparison)
    if is_there("zsh", left_out, "the syntax of the completion for zsh"):
        comparison.expect("zsh -n", ([], 0), said_by(["zsh", "-n", ZSH]))
