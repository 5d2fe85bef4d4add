"""The command run.py as the comparisons use it."""

import subprocess
from pathlib import Path

RUN = Path(__file__).resolve().with_name("run.py")
# how many records a program is handed at once while its calls fail
AT_ONCE = 6


def ends_lawfully(judge, command, given=b"", step=1):
    """Whether a command that is handed these bytes ends as its judge allows, with faults at each `step`th call."""
    words = [RUN, "--judge", judge, "--step", str(step), *command]
    return subprocess.run(words, input=given, check=False).returncode == 0


def end_lawfully(judge, command, records, step):
    """Whether a command ends so that is handed some of these records at a time. All are tried in any case."""
    groups = [b"".join(records[start:start + AT_ONCE]) for start in range(0, len(records), AT_ONCE)]
    return all([ends_lawfully(judge, command, group, step) for group in groups])
