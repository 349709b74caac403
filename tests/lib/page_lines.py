"""Prints the commands of a section of a page: the first `apt-get install`, in one line, and then each line of the block
of code that it begins, or that follows it.

usage: page_lines.py PAGE HEADING"""

import re
import sys

# Where the list of packages ends: in a text at the quote, in a block at a line's end, which a backslash continues.
IN_TEXT = r"[^`]*"
IN_BLOCK = r"(?:[^\\\n#]|\\\n)*"


def section_of(page, heading):
    pattern = rf"^#+ {re.escape(heading)}\n(.*?)(?=^#|\Z)"
    return re.search(pattern, page, re.M | re.S)[1]


def joined(text):
    """The text without continued lines."""
    return text.replace("\\\n", " ")


def page_lines(page, heading):
    before, install, after = section_of(page, heading).partition("apt-get install ")
    packages = re.match(IN_TEXT if before.endswith("`") else IN_BLOCK, after)[0]
    # The block goes on in the next line, or begins after a blank line.
    block = re.search(
        r"^.*\n((?:    .*\n)+)|\n\n((?:    .*\n)+)", after[len(packages) :]
    )
    lines = joined(block[1] or block[2]).splitlines()
    first = install + " ".join(joined(packages).split())
    return [first, *(line.strip() for line in lines)]


if __name__ == "__main__":
    with open(sys.argv[1]) as page:
        print("\n".join(page_lines(page.read(), sys.argv[2])))
