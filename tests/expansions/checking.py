"""What `pfreplay check` says of rulesets: how many rules they make, or their first fault."""

import hashlib
import os
import subprocess
import tempfile
from concurrent.futures import ThreadPoolExecutor
from pathlib import Path

# for one text, so that one without an end is told
TIME_LIMIT = 300


def words_of(interfaces):
    """The flags that name interfaces."""
    first, *others = interfaces
    yield from ("--interface", first.name, "--address", f"{first.address}/{first.bits}")
    for each in others:
        yield from ("--also", f"{each.name},{each.address}/{each.bits}")


def said_of(program, file, text):
    """What is said of a text, in the words of the model. Behind the numbers of rules stands the text's MD5."""
    file.write_bytes(text.text)
    try:
        seen = subprocess.run([program, "check", file, *words_of(text.interfaces)], stdin=subprocess.DEVNULL,
                              capture_output=True, timeout=TIME_LIMIT, check=False)
    except subprocess.TimeoutExpired:
        return f"no answer in {TIME_LIMIT} seconds"
    finally:
        file.unlink()
    if seen.returncode == 0:
        return seen.stdout.decode().removesuffix(f", {hashlib.md5(text.text).hexdigest()}\n")
    return seen.stderr.decode().removeprefix("pfreplay: rules ").removesuffix("\n")


def said_of_each(program, texts):
    """What is said of texts, as many side by side as there are processors."""
    with tempfile.TemporaryDirectory() as folder, ThreadPoolExecutor(os.cpu_count()) as pool:
        files = (Path(folder) / str(number) for number in range(len(texts)))
        return list(pool.map(lambda file, text: said_of(program, file, text), files, texts))
