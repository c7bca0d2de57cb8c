#!/usr/bin/env python3
"""imports.py CRATE: gives each folder of the crate's proofs a file Imports.antt, which passes on what three or more of its
files import from elsewhere, and shortens their heads by it. A crate that has one for all its proofs stays as it is. What is
the toolchain's stays imported from there, since the gate lets nobody pass on its operators. Run at the top of the repository;
then `rt fmt` and `rt check` in the crate's folder."""
import collections
import pathlib
import re
import sys

LEAST = 3
LIMIT = 120
USE = re.compile(r"^(?:unfoldable )?(pub )?use ([^\s{]+)\.\{([^}]*)\}\n", re.M)
CRATES = pathlib.Path("crates")


def items_of(text):
    return [" ".join(it.split()) for it in text.split(",") if it.strip()]


def spelled(item):
    """The name that an imported item has in the file."""
    return item.rsplit(" as ", 1)[-1] if " as " in item else item.rsplit(".", 1)[-1]


def unfoldable_words():
    """What each module of the repository lets others unfold."""
    found = collections.defaultdict(set)
    for file in CRATES.glob("*/specs/**/*.antt"):
        module = "Rattle." + ".".join(file.relative_to(CRATES).with_suffix("").parts)
        text = file.read_text()
        found[module].update(re.findall(r"^unfoldable pub (\S+) ", text, re.M))
        for _, items in re.findall(r"^unfoldable pub use ([^\s{]+)\.\{([^}]*)\}", text, re.M):
            found[module].update(items_of(items))
    return found


def uses(head, module, items):
    """Lines that import these items, each short enough."""
    lines, now = [], []
    for item in items:
        if now and len(f"{head} {module}.{{}}") + len(", ".join([*now, item])) > LIMIT:
            lines.append(now)
            now = []
        now.append(item)
    return "".join(f"{head} {module}.{{{', '.join(it)}}}\n" for it in [*lines, now] if it)


def chosen_words(texts, own, unfoldable):
    """The module and item of each name that is passed on, the one that most files mean where a name has two."""
    count, unfolded = collections.Counter(), set()
    for text in texts.values():
        for line in re.findall(r"^\s*unfolding (.*)$", text, re.M):
            unfolded.update(line.split())
        for passed, module, items in USE.findall(text):
            if not passed and not module.startswith((own, "Rattle.std.", "Prim")):
                count.update((module, item) for item in items_of(items))
    chosen = {}
    for (module, item), times in sorted(count.items(), key=lambda it: (-it[1], it[0])):
        name = spelled(item)
        if times >= LEAST and name not in chosen and (name not in unfolded or item in unfoldable[module]):
            chosen[name] = module, item
    return chosen


def text_of(chosen, unfoldable):
    """The file that passes the words on."""
    of_module = collections.defaultdict(list)
    for module, item in chosen.values():
        of_module[module].append(item)
    text = "-- What many files of this folder speak of.\n"
    for module in sorted(of_module):
        open_ones = sorted(it for it in of_module[module] if it in unfoldable[module])
        text += uses("pub use", module, sorted(set(of_module[module]) - set(open_ones)))
        text += uses("unfoldable pub use", module, open_ones)
    return text


def shortened(text, path, words):
    """A file that imports these words from one place."""
    mine, others = [], collections.defaultdict(list)
    for passed, module, items in USE.findall(text):
        for item in items_of(items) if not passed else []:
            kept = mine if (module, item) in words else others[module]
            kept.append(item) if item not in kept else None
    head, done = [uses("use", path, [spelled(it) for it in mine])], set()

    def again(found):
        if found[1]:
            return found[0]
        first = head.pop() if head else ""
        fresh = found[2] not in done
        done.add(found[2])
        return first + (uses("use", found[2], others[found[2]]) if fresh else "")

    return USE.sub(again, text) if len(mine) >= LEAST else text


def main():
    own, unfoldable = f"Rattle.{sys.argv[1]}.proofs", unfoldable_words()
    root = CRATES / sys.argv[1] / "proofs"
    for folder in sorted({it.parent for it in root.rglob("*.antt")}):
        files = [it for it in sorted(folder.glob("*.antt")) if it.stem not in ("Imports", "Lib") and not (folder / it.stem).is_dir()]
        texts = {it: it.read_text() for it in files}
        chosen = chosen_words(texts, own, unfoldable)
        parent = folder / "Lib.antt" if (folder / "Lib.antt").exists() else folder.with_suffix(".antt")
        has_one = any((it / "Imports.antt").exists() for it in (root, folder))
        if len(files) < 5 or len(chosen) < 8 or not parent.exists() or has_one:
            continue
        (folder / "Imports.antt").write_text(text_of(chosen, unfoldable))
        parent.write_text(parent.read_text().rstrip("\n") + "\npub mod Imports\n")
        path = "Rattle." + ".".join((folder / "Imports").relative_to(CRATES).parts)
        for file, text in texts.items():
            file.write_text(shortened(text, path, set(chosen.values())))
        print(f"{folder}: {len(files)} files, {len(chosen)} words")


main()
