#!/usr/bin/env python3
"""Compares what docs/FORMATS.md says of the words for people with the rows of crates/stab_cli/src/tests/word_rows.rt, each of which a test there compares with what the program writes.

    tests/plain_words.py

Of each code the words and the document must be the same, in the same order; so must the words of the statuses without a code, and the lines for wrong words. Prints what differs.
Exits with 1 where something does.
"""

import difflib
import pathlib
import re
import sys

ROOT = pathlib.Path(__file__).resolve().parent.parent
ROWS = re.compile(r'const WORDS: &str = "\\\n(.*?)";', re.DOTALL)
SECTION = re.compile(r"^## In plain words\n(.*?)(?=^## |\Z)", re.MULTILINE | re.DOTALL)
LINE = re.compile(r"^\| (\d{3}) \| (.*) \| (docs/\w+\.md) \|$", re.MULTILINE)
OTHER = re.compile(r"`([^`]+)` \((\d)\)")
USAGE = re.compile(r"^```\n(usage: .*?)\n```$", re.MULTILINE | re.DOTALL)
# The status that ends well has words too, which are never written.
DONE = "done"


def of_program():
    """The rows of the program's test; of what has more lines than one `~` stands between them."""
    text = (ROOT / "crates/stab_cli/src/tests/word_rows.rt").read_text(encoding="utf-8")
    return [row for row in ROWS.search(text)[1].split("\n") if row != DONE]


def of_document():
    """The same rows by the document: the table, the other lines by their exit numbers, and the modes."""
    section = SECTION.search((ROOT / "docs/FORMATS.md").read_text(encoding="utf-8"))[1]
    rows = ["refused %s: %s (%s)" % line for line in LINE.findall(section)]
    others = sorted((number, words) for words, number in OTHER.findall(section))
    return rows + [words for _, words in others] + [USAGE.search(section)[1].replace("\n", "~")]


def main():
    program, document = of_program(), of_document()
    for line in difflib.unified_diff(program, document, "the rows of the test", "docs/FORMATS.md", n=0, lineterm=""):
        print(line)
    print("%d rows of the program, %d of the document" % (len(program), len(document)))
    return 0 if program == document else 1


if __name__ == "__main__":
    sys.exit(main())
