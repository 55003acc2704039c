"""Runs a driver of the Rust, or any program that reads the same lines."""
import pathlib
import re
import subprocess

from flags import ORACLE

# Where `build` puts the drivers: it knows.
WHERE = subprocess.run([str(ORACLE / "build"), "--where"], check=True, text=True, stdout=subprocess.PIPE)
BUILT = pathlib.Path(WHERE.stdout.strip())

# The words that an answer can begin with; other lines go on with the answer before them.
ANSWER = re.compile(r"^(?=done|conflict|refused|isolated|coalesced|filtered|emptied|merged|read|written|listed|panicked"
                    r"|broken|case)", re.M)


def driver(name):
    return BUILT / name


class Malformed(Exception):
    """A line makes no sense to the driver: the fault of whoever made the case."""


class Ended(Exception):
    """The program did not come to its end."""


def run(program, lines):
    """What the program writes."""
    done = subprocess.run([str(program)], input="\n".join(lines) + "\n", capture_output=True, text=True)
    if done.returncode == 2 and done.stderr.startswith("driver: "):
        raise Malformed(done.stderr)
    if done.returncode != 0:
        raise Ended(f"the program ended with {done.returncode}: {done.stderr[-300:]}")
    return done.stdout


def answers(text):
    """Splits what was written into answers of one or more lines."""
    return ANSWER.split(text)[1:]
