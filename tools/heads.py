#!/usr/bin/env python3
"""heads.py FILE..: shortens the heads of files of proofs. A variant is named behind its type, as `Channel.A`, so that the
module of the variants needs no name; and where a module gives a file few words, these stand by their paths in one list for
the crate. Run at the top of the repository; then `tools/wrap.py` on the files, `rt fmt` and `rt check` in the crate's folder."""
import collections
import pathlib
import re
import sys

LIMIT = 120
FEW = 3
CRATES = pathlib.Path("crates")
USE = re.compile(r"^((?:unfoldable )?(?:pub )?)use ([^\s{]+)\.\{([^}]*)\}$", re.M)
VARIANTS = re.compile(r"^use (Rattle\.[^\s{]+\.([A-Z]\w*))\.TheVariants as (\S+)\n", re.M)
DECLARED = re.compile(r"^\s*(?:unfoldable |abbrev |pub |pattern )*(?:record |data )?([^\s(){};,\"@:]+) ?(?::|\()", re.M)
BEFORE = r"(?<![^\s(){}\[\];,])"


def items_of(text):
    return [" ".join(it.split()) for it in text.split(",") if it.strip()]


def spelled(item):
    """The name that an imported item has in the file."""
    return item.rsplit(" as ", 1)[-1].rsplit(".", 1)[-1]


def passed_on(module):
    """The words that a file Imports.antt passes on, each with its module."""
    file = CRATES / (module.removeprefix("Rattle.").replace(".", "/") + ".antt")
    found = USE.findall(file.read_text()) if file.exists() else []
    return {spelled(item): whence for mark, whence, items in found if "pub" in mark for item in items_of(items)}


def behind_types(text, imports):
    """The file with its variants named behind their types."""
    passed = passed_on(imports)
    named = {spelled(it): module for _, module, items in USE.findall(text) for it in items_of(items)}
    declared = set(DECLARED.findall(USE.sub("", text)))
    for line, module, kind, name in [(it[0], *it.groups()) for it in VARIANTS.finditer(text)]:
        known = named.get(kind)
        if kind in declared or known not in (None, module) and passed_on(known).get(kind) != module:
            continue
        text = re.sub(BEFORE + re.escape(name) + r"\.(?=[A-Z])", kind + ".", text)
        whence = imports if passed.get(kind) == module else module
        text = text.replace(line, "" if known else f"use {whence}.{{{kind}}}\n", 1)
        named[kind] = whence
    return text


def filled(head, items):
    """Lines that import these items, each short enough."""
    lines, now = [], []
    for item in items:
        if now and len(f"{head}{{{', '.join([*now, item])}}}") > LIMIT:
            lines.append(now)
            now = []
        now.append(item)
    return [f"{head}{{{', '.join(it)}}}" for it in [*lines, now] if it]


def by_path(module, items):
    """The crate of these items, and how they are written below it, where that is shorter than lines of their own."""
    parts = module.split(".")
    depth = 3 if parts[1] == "tl_coherence" else 2
    crate, tail = ".".join(parts[:depth]), ".".join(parts[depth:])
    paths = [f"{tail}.{item}" for item in items]
    room = (LIMIT - len(f"use {crate}.{{}}")) * len(filled(f"use {module}.", items))
    return (crate, paths) if tail and len(items) <= FEW and len(", ".join(paths)) < room * 0.8 else None


def packed(lines):
    """The lines of a head, with one list for each module."""
    lists, order = collections.defaultdict(list), []
    for line in lines:
        found = USE.fullmatch(line)
        order += [line] if not found else [found.groups()[:2]] if found.groups()[:2] not in lists else []
        if found:
            fresh = [it for it in items_of(found[3]) if it not in lists[found.groups()[:2]]]
            lists[found.groups()[:2]] += fresh
    paths, owners = collections.defaultdict(list), collections.defaultdict(list)
    for (mark, module), items in lists.items():
        if not mark and (short := by_path(module, items)):
            paths[short[0]] += short[1]
            owners[short[0]] += filled(f"use {module}.", items)
    for crate in [it for it, found in paths.items() if len(filled(f"use {it}.", found)) >= len(owners[it])]:
        del paths[crate]
    packed_lines, done = [], set()
    for it in order:
        if isinstance(it, str):
            packed_lines.append(it)
            continue
        mark, module = it
        short = None if mark else by_path(module, lists[it])
        if not short or short[0] not in paths:
            packed_lines += filled(f"{mark}use {module}.", lists[it])
        elif short[0] not in done:
            done.add(short[0])
            packed_lines += filled(f"use {short[0]}.", paths[short[0]])
    return packed_lines


def main():
    for name in sys.argv[1:]:
        file = pathlib.Path(name)
        folder = file.relative_to(CRATES).parent if not file.is_absolute() else file.parent
        text = behind_types(file.read_text(), "Rattle." + ".".join((*folder.parts, "Imports")))
        lines = text.split("\n")
        first = next((at for at, line in enumerate(lines) if re.match(r"(unfoldable )?(pub )?use ", line)), None)
        if first is None:
            continue
        last = first
        while re.match(r"(unfoldable )?(pub )?use ", lines[last]):
            last += 1
        lines[first:last] = packed(lines[first:last])
        file.write_text("\n".join(lines))


main()
