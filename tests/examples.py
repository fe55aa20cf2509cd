#!/usr/bin/env python3
"""Compares the texts in examples/ and the sessions of README.md with what the program writes, byte for byte.

    tests/examples.py [PATH_TO_STAB]

Beside each examples/NAME.job stands what is expected of it: NAME.report is the text of `compile`, NAME.trace what `run` writes behind that report, NAME.words the text of `asm`, NAME.listing
that of `list`, and NAME.text that of `exec` where the job has an image, else that of `model`. A session is a block of README.md whose first line begins with `$ `: each such line is done by sh
in a folder with `stab` and `examples`, and behind it stands all that a terminal shows of it. Prints what differs. Exits with 1 where something does, where a job has nothing beside it, or where a
text belongs to no job.
"""

import argparse
import difflib
import pathlib
import re
import subprocess
import sys
import tempfile

ROOT = pathlib.Path(__file__).resolve().parent.parent
EXAMPLES = ROOT / "examples"
MODES = {".report": "compile", ".trace": "run", ".words": "asm", ".listing": "list"}
BLOCK = re.compile(r"^```\n(\$ .*?)^```$", re.MULTILINE | re.DOTALL)
COMMAND = re.compile(r"^\$ (.*)\n((?:(?!\$ ).*\n)*)", re.MULTILINE)


def asked(stab, mode, job):
    """The text of the program, where it accepts the job; else what is wrong."""
    ended = subprocess.run([stab, mode], input=job, capture_output=True)
    if ended.returncode:
        return b"stab %s ends with %d: %s%s" % (mode.encode(), ended.returncode, ended.stdout, ended.stderr)
    return ended.stdout


def written(stab, job, suffix):
    """What the program writes where the file with this suffix stands beside a job."""
    if suffix == ".text":
        return asked(stab, "exec" if re.search(rb"^%rom$", job, re.MULTILINE) else "model", job)
    text = asked(stab, MODES[suffix], job)
    if suffix != ".trace":
        return text
    report, end, trace = text.partition(b"\nend\n")
    # `compile` has no `%run`, which is the last section.
    compiled = asked(stab, "compile", re.sub(rb"^%run$.*", b"", job, flags=re.MULTILINE | re.DOTALL))
    return trace if report + end == compiled else b"the report isn't that of compile:\n" + text


def is_same(name, expected, given):
    """Whether two texts are the same; prints where they are not."""
    if expected == given:
        return True
    lines = [text.decode("utf-8", "backslashreplace").splitlines() for text in (expected, given)]
    print("\n".join(difflib.unified_diff(*lines, name, "what the program writes", n=1, lineterm="")) or "%s: the ends of lines differ" % name)
    return False


def examples(stab):
    """For each text in examples/ whether it is what the program writes."""
    jobs = {path.stem: path.read_bytes() for path in EXAMPLES.glob("*.job")}
    alone = set(jobs)
    for path in sorted(EXAMPLES.iterdir()):
        if path.suffix == ".job":
            continue
        if path.stem not in jobs or path.suffix not in {".text", *MODES}:
            print("%s belongs to no job" % path.name)
            yield False
            continue
        alone.discard(path.stem)
        yield is_same(path.name, path.read_bytes(), written(stab, jobs[path.stem], path.suffix))
    for name in sorted(alone):
        print("%s.job has nothing beside it" % name)
        yield False


def sessions(stab):
    """For each line of the sessions whether what stands behind it is what a terminal shows."""
    blocks = BLOCK.findall((ROOT / "README.md").read_text(encoding="utf-8"))
    with tempfile.TemporaryDirectory() as place:
        folder = pathlib.Path(place)
        (folder / "stab").symlink_to(stab)
        (folder / "examples").symlink_to(EXAMPLES)
        for command, shown in (line for block in blocks for line in COMMAND.findall(block)):
            ended = subprocess.run(["sh", "-c", command], cwd=folder, stdin=subprocess.DEVNULL, stdout=subprocess.PIPE, stderr=subprocess.STDOUT)
            yield is_same("README.md, $ " + command, shown.encode(), ended.stdout)


def main():
    asking = argparse.ArgumentParser()
    asking.add_argument("stab", nargs="?", type=pathlib.Path, default=ROOT / "crates/stab_cli/out/stab_cli")
    stab = asking.parse_args().stab.resolve()
    if not stab.is_file():
        print("%s isn't built" % stab)
        return 1
    texts, shown = list(examples(stab)), list(sessions(stab))
    print("%d of %d texts in examples/ agree, and %d of %d lines of the sessions" % (sum(texts), len(texts), sum(shown), len(shown)))
    return 0 if texts and shown and all(texts + shown) else 1


if __name__ == "__main__":
    sys.exit(main())
