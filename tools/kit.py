"""What the tools share: their words, where the repository is, and `rt check` run in a crate, with what it printed."""
import argparse
import pathlib
import shutil
import subprocess
import sys

ROOT = pathlib.Path(__file__).resolve().parent.parent


def words(text):
    """A reader of a tool's words, which prints the tool's own head comment on --help."""
    return argparse.ArgumentParser(
        usage=argparse.SUPPRESS, description=text, formatter_class=argparse.RawDescriptionHelpFormatter
    )


def stop(message):
    """Ends the program as one that was used wrongly."""
    print(f"{pathlib.Path(sys.argv[0]).name}: {message}", file=sys.stderr)
    sys.exit(2)


def check(crate, *words):
    """Runs `rt check WORDS..` in a crate's folder: what it printed, and its status."""
    if not shutil.which("rt"):
        stop("no 'rt' on the PATH: install the Rattle kit that README.md names")
    listed = [line.split(":")[0].split() for line in (ROOT / "crates.txt").read_text().splitlines()]
    if crate not in [words[0] for words in listed if words]:
        stop(f"crates.txt lists no crate '{crate}'")
    run = subprocess.run(
        ["rt", "check", *words],
        cwd=ROOT / "crates" / crate,
        stdout=subprocess.PIPE,
        stderr=subprocess.STDOUT,
        encoding="utf-8",
    )
    return run.stdout, run.returncode


def blocks(printed):
    """What `rt check` printed as pairs: a line that begins at the margin, and the indented lines that go with it."""
    found = []
    for line in printed.splitlines():
        if line and not line.startswith(" "):
            found.append((line, []))
        elif found:
            found[-1][1].append(line)
    return found
