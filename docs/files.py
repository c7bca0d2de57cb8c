#!/usr/bin/env python3
"""files.py FOLDER: writes the files that the pages have their readers save, so that an installation has them too.

Each is the block of indented lines after a line with "Save this as `NAME`". No two pages have files of one name."""
import pathlib
import re
import sys

DOCS = pathlib.Path(__file__).resolve().parent
FILE = re.compile(r"\bSave this as `([\w.]+)`.*\n\n((?:    (?!\$ ).*\n|\n(?=\n*    (?!\$ )))+)")


def files_of(text):
    """The files of a page's text by name."""
    return {name: re.sub(r"^    ", "", block, flags=re.M) for name, block in FILE.findall(text)}


def main():
    folder = pathlib.Path(sys.argv[1])
    folder.mkdir(parents=True, exist_ok=True)
    written = {}
    for page in sorted(DOCS.glob("*.md")):
        for name, text in files_of(page.read_text()).items():
            if name in written:
                sys.exit(f"docs/files.py: {written[name]} and {page.name} both have a file {name}")
            written[name] = page.name
            (folder / name).write_text(text)


if __name__ == "__main__":
    main()
