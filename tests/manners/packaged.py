"""The Debian package: what it holds, what lintian says of it, and that what was installed runs."""

import gzip
import os
import shlex
from concurrent.futures import ThreadPoolExecutor

from building import ROOT
from manners.documents import PAGE
from manners.helps import VERSION
from manners.tools import is_there, said_by
from runs.shown_commands import commands, printed_by

NAME, NUMBER = VERSION.split()
FIELDS = {"Package": NAME, "Version": NUMBER, "Section": "net", "Priority": "optional"}
# further fields that are there
FILLED = ("Maintainer", "Depends", "Installed-Size", "Description")
DOCUMENTS = "usr/share/doc/pfreplay"
PROGRAM, MANUAL = "usr/bin/pfreplay", "usr/share/man/man8/pfreplay.8.gz"
FOLDER_MODE, FILE_MODE, PROGRAM_MODE = "drwxr-xr-x", "-rw-r--r--", "-rwxr-xr-x"
PROMISED = (PROGRAM, MANUAL, "usr/share/bash-completion/completions/pfreplay",
            "usr/share/zsh/vendor-completions/_pfreplay",
            *(f"{DOCUMENTS}/{name}" for name in ("README.md", "FORMATS.md", "copyright", "changelog.gz")))
# without scripts, so nothing runs as the package is installed or removed
CONTROL_FILES = ["control", "md5sums"]
# the ends of the names of examples
EXAMPLES = (".conf", ".pcap", ".md")
# the first example, and what it has written
SHOWN = 2


def made(comparison, name, **variables):
    """Makes the package in a folder of its own, with some variables in the environment: the file, or None."""
    folder = comparison.folder / name
    lines, status = said_by([ROOT / "package", folder],
                            env={**os.environ, "PFREPLAY_PROGRAM": str(comparison.program), **variables})
    comparison.expect(f"./package, {name}", 0, status if status == 0 else (status, lines))
    found = [*folder.glob(f"{NAME}_{NUMBER}_*.deb")] if folder.is_dir() else []
    return found[0] if len(found) == 1 else None


def compare_fields(comparison, package):
    """What dpkg reads of the package."""
    seen = {field: " ".join(said_by(["dpkg-deb", "--field", package, field])[0]) for field in (*FIELDS, *FILLED)}
    comparison.expect("fields", FIELDS, {field: seen[field] for field in FIELDS})
    comparison.expect("fields that are filled", [], [field for field in FILLED if not seen[field]])
    architecture = said_by(["dpkg", "--print-architecture"])[0]
    comparison.expect("architecture", architecture, said_by(["dpkg-deb", "--field", package, "Architecture"])[0])
    comparison.expect("files for dpkg", CONTROL_FILES,
                      sorted(line.split()[-1].removeprefix("./") for line in
                             said_by(["bash", "-c", 'dpkg-deb --ctrl-tarfile "$0" | tar -t', package])[0]
                             if not line.endswith("/")))


def compare_contents(comparison, package):
    """What stands where, with its owner and its mode."""
    entries = [line.split() for line in said_by(["dpkg-deb", "--contents", package])[0]]
    modes = {entry[-1].removeprefix("./"): entry[0] for entry in entries}
    comparison.expect("promised files", [], [path for path in PROMISED if path not in modes])
    examples = [file.name for file in (ROOT / "examples").iterdir() if file.suffix in EXAMPLES]
    comparison.expect("examples", [], [name for name in examples if f"{DOCUMENTS}/examples/{name}" not in modes])
    comparison.expect("owners", {"root/root"}, {entry[1] for entry in entries})
    comparison.expect("modes", {}, {path: mode for path, mode in modes.items() if mode != mode_of(path)})


def mode_of(path):
    """The mode that a file of the package should have."""
    if path == PROGRAM:
        return PROGRAM_MODE
    return FOLDER_MODE if path.endswith("/") or not path else FILE_MODE


def compare_installed(comparison, package):
    """The files behind an installation, and the first example run with them."""
    root = comparison.folder / "root"
    comparison.expect("installed", ([], 0), said_by(["dpkg-deb", "--extract", package, root]))
    comparison.expect("the installed man page", PAGE.read_bytes(), gzip.decompress((root / MANUAL).read_bytes()))
    comparison.expect("sums", 0, said_by(["bash", "-c", 'dpkg-deb --info "$0" md5sums | md5sum --quiet -c', package],
                                         cwd=root)[1])
    home = comparison.folder / "home"
    home.mkdir()
    (home / "examples").symlink_to(root / DOCUMENTS / "examples")
    shown = [*commands((home / "examples" / "README.md").read_text())][:SHOWN]
    comparison.expect("the first example runs the program", True, bool(shown) and shown[0].text.startswith(f"{NAME} "))
    found = f"PATH={shlex.quote(str((root / PROGRAM).parent))}:$PATH\n"
    for command in shown:
        seen = printed_by(command._replace(text=found + command.text), home)
        comparison.expect(f"installed: {command.text}", command.printed, seen)


def lint_package(package):
    """What lintian finds wrong."""
    lines, status = said_by(["lintian", "--fail-on", "error,warning", package])
    return [] if status == 0 else [f"status {status}", *lines]


def compare(comparison, left_out):
    """The package; made once more in another zone of time it has the same bytes."""
    if not is_there("dpkg-deb", left_out, "the package"):
        return
    package = made(comparison, "once")
    comparison.expect("there is a package", True, package is not None)
    if package:
        # lintian takes the longest
        with ThreadPoolExecutor() as pool:
            lint = pool.submit(lint_package, package) if is_there("lintian", left_out, "lintian's verdict") else None
            compare_fields(comparison, package)
            compare_contents(comparison, package)
            compare_installed(comparison, package)
            again = made(comparison, "again", TZ="Asia/Tokyo")
            comparison.expect("the same bytes", True, again and again.read_bytes() == package.read_bytes())
            comparison.expect("lintian", [], lint.result() if lint else [])
