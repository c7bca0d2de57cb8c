"""What a page has its reader save and run: the files, and the commands with what they write."""

import os
import re
import subprocess
import sys

from harness import HERE, OUT, ROOT, SHARED_LIBRARY, TLTOOL, path, want

sys.path.insert(0, os.path.join(ROOT, "docs"))
from files import files_of
from walk import walk

# Where the pages have what Debian's packages install, and where it is here.
PLACES = {
    "/usr/share/hefrudyl": HERE,
    "/usr/include": os.path.join(HERE, "include"),
    "/usr/lib/x86_64-linux-gnu": OUT,
}


def text_of(page):
    """A page of docs/, with the places of this checkout."""
    with open(os.path.join(ROOT, "docs", page)) as file:
        text = file.read()
    for installed, here in PLACES.items():
        text = text.replace(installed, here)
    return text


def without_indent(text):
    return re.sub(r"^    ", "", text, flags=re.M)


def save(page, folder):
    """Writes the files of a page into a folder of what is built, and gives its path."""
    os.makedirs(path(folder), exist_ok=True)
    for name, text in files_of(text_of(page)).items():
        with open(os.path.join(path(folder), name), "w") as file:
            file.write(text)
    return path(folder)


def walk_page(page, folder):
    """Runs the commands of a page in a folder that has its files, where they write what the page shows. The page's lines
    such as `SV=/usr/share/hefrudyl/sv` are set before each command."""
    text = text_of(page)
    variables = without_indent("".join(re.findall(r"^    [A-Z]+=.*\n(?:    +\S.*\n)*", text, re.M)))
    beside = {"PATH": f"{os.path.dirname(TLTOOL)}:{os.environ['PATH']}", "LD_LIBRARY_PATH": OUT, "HEFRUDYL_LIBRARY": SHARED_LIBRARY}

    def run(command):
        done = subprocess.run(["bash", "-c", variables + command], stdout=subprocess.PIPE, stderr=subprocess.STDOUT, text=True,
                              timeout=1800, cwd=folder, env={**os.environ, **beside})
        return done.stdout

    passed, failed = walk(page, text, run)
    want(passed and not failed, f"docs/{page}: {failed} of {passed + failed} commands write something else")
