#!/usr/bin/env python3
"""Compares docs/ARCHITECTURE.md with the tree: each file, definition, law and lemma that its tables name exists, its
lists of files that must be believed are those that following imports finds, and statements name of specs/code what it
lists. --count prints these with their lines, and
--above CRATE the crates that stand on one, the lowest first."""
import pathlib
import re
import sys

ROOT = pathlib.Path(__file__).resolve().parent.parent
PAGE = (ROOT / "docs/ARCHITECTURE.md").read_text()
COHERENCE = ROOT / "crates/tl_coherence"
faults = []


def check(holds, fault):
    if not holds:
        faults.append(fault)


def section(title):
    return PAGE.split(f"\n## {title}\n")[1].split("\n## ")[0]


def rows(text):
    """The rows of a table, less its head, each a list of cells."""
    lines = [line for line in text.splitlines() if line.startswith("| ") or line.startswith("|-")]
    return [[cell.strip() for cell in line.strip("|").split("|")] for line in lines[2:]]


def modules():
    """The files of specs/ by their module path."""
    found = ROOT.glob("crates/*/specs/**/*.antt")
    return {".".join(file.relative_to(ROOT / "crates").with_suffix("").parts): file for file in found if "out" not in file.parts}


def closure(root):
    """The modules of definitions that this one stands on, itself among them."""
    known, seen, left = modules(), set(), [root]
    while left:
        module = left.pop()
        if module in seen:
            continue
        seen.add(module)
        for path in re.findall(r"Rattle\.(tl_\w+\.specs\.[\w.]+)", known[module].read_text()):
            parts = path.rstrip(".").split(".")
            left += [".".join(parts[:end]) for end in range(3, len(parts) + 1) if ".".join(parts[:end]) in known]
    return {module: known[module] for module in seen if module.count(".") > 2}


def listed(text):
    """The modules that a list names: on each line a folder, and then the names of files in it."""
    lines = re.findall(r"^\d+\. `crates/([\w/]+)`: (.*)$", text, re.M)
    return {f"{folder}/{name}".replace("/", ".") for folder, names in lines for name in re.findall(r"`(\w+)`", names)}


def libraries():
    """The crates of crates.txt, each with those of this repository that it names."""
    lines = [line for line in (ROOT / "crates.txt").read_text().splitlines() if line and not line.startswith("#")]
    named = {re.split(r"[ :]", line)[0]: line.split(":")[1].split() for line in lines}
    return {crate: [it for it in below if it in named] for crate, below in named.items()}


def below(crates, known):
    """These crates and what they stand on."""
    found = set(crates)
    for crate in crates:
        found |= below(known[crate], known)
    return found


def above(crate):
    """The crates that stand on one, the lowest first."""
    known = libraries()
    found = [it for it in known if crate in below(known[it], known)]
    return sorted(found, key=lambda it: len(below([it], known)))


def check_crates():
    named = {row[0].strip("`"): re.findall(r"`(\w+)`", row[2]) for row in rows(section("Crates"))}
    known = libraries()
    check(set(named) == set(known), f"crates: the page and crates.txt differ in {sorted(set(named) ^ set(known))}")
    for crate in set(named) & set(known):
        wrong = below(named[crate], known) ^ below(known[crate], known)
        check(not wrong, f"{crate}: the page and crates.txt differ in what it stands on: {sorted(wrong)}")


def check_clauses():
    laws = (COHERENCE / "src/law.rt").read_text()
    for clause, definition, law, proof in rows(section("From a clause to its proof")):
        file, name = re.fullmatch(r"(\w+): `([\w-]+)`", definition).groups()
        text = (COHERENCE / f"specs/statement/{file}.antt").read_text()
        check(re.search(rf"^(abbrev |unfoldable )?pub (record )?{name}\b", text, re.M), f"{clause}: no {name} in {file}")
        law = law.strip("`")
        check(f"pub fn {law}<" in laws, f"{clause}: no law {law}")
        file, name = re.fullmatch(r"([\w/]+): `([\w-]+)`", proof).groups()
        path = COHERENCE / f"proofs/{file}.antt"
        check(path.is_file() and re.search(rf"^(pub )?{name} ", path.read_text(), re.M), f"{clause}: no {name} in proofs/{file}.antt")
        answers = "".join(answer.read_text() for answer in (COHERENCE / f"proofs/law/{law}").glob("*.antt"))
        check(file.replace("/", ".") in answers, f"{clause}: the law {law} is not answered from {file}")


def check_folders():
    for title, crate in (
        ("Folders of the proof, lowest first", "tl_coherence"),
        ("Folders of the proofs of `tl_client`", "tl_client"),
        ("Folders of the proofs of `tl_manager`", "tl_manager"),
    ):
        named = {row[0].strip("`") for row in rows(section(title))}
        folders = (ROOT / f"crates/{crate}/proofs").iterdir()
        real = {it.name for it in folders if it.is_dir() and (it.name == "law" or it.with_suffix(".antt").is_file())}
        check(named == real, f"folders of the proofs of {crate}: the page and the tree differ in {sorted(named ^ real)}")


def check_lists():
    believed = section("What must be believed of the theorem, in reading order")
    theorem, verdicts = believed.split("For the verdict of `tltool monitor`")
    monitor, coherent = verdicts.split("For the verdict of `tltool coherent`")
    for title, text, root in (
        ("theorem", theorem, "tl_coherence.specs.statement.Theorem"),
        ("monitor", monitor, "tl_lines.specs.statement.Judged"),
        ("coherent", monitor + coherent, "tl_lines.specs.statement.Coherent"),
    ):
        real = closure(root)
        check(listed(text) == set(real), f"what must be believed of the {title}: differs in {sorted(listed(text) ^ set(real))}")
        if "--count" in sys.argv:
            counts = {module: len(file.read_text().splitlines()) for module, file in sorted(real.items())}
            print(*(f"{count:5} {module}" for module, count in counts.items()), sep="\n")
            print(f"{sum(counts.values()):5} lines in {len(counts)} files: {title}")


def names_of_code(file):
    """What a file of definitions imports from specs/code: names, or modules where these are imported whole."""
    imported = re.findall(r"^(?:pub )?use Rattle\.\w+\.specs\.code\.(.*)$", file.read_text(), re.M)
    return {name for names in imported for name in re.findall(r"[\w◌-]+(?=[,}])", names) or [names]}


def check_statements():
    listed = {row[0]: set(re.findall(r"`([^`]+)`", row[1])) for row in rows(section("What statements name of `specs/code`"))}
    files = (file for file in modules().values() if "statement" in file.parts)
    found = {f"`{file.relative_to(ROOT).parts[1]}`: `{file.stem}`": names_of_code(file) for file in files}
    found = {statement: names for statement, names in found.items() if names}
    for statement in sorted(set(listed) | set(found)):
        wrong = listed.get(statement, set()) ^ found.get(statement, set())
        check(not wrong, f"what {statement} names of specs/code: the page and the tree differ in {sorted(wrong)}")


def check_paths():
    for path in sorted(set(re.findall(r"`((?:crates|docs)/[\w./]+)", PAGE))):
        check((ROOT / path).exists(), f"no {path}")


if "--above" in sys.argv:
    print(*above(sys.argv[sys.argv.index("--above") + 1]), sep="\n")
    sys.exit(0)
for it in (check_crates, check_clauses, check_folders, check_lists, check_statements, check_paths):
    it()
print(*faults, sep="\n", end="\n" if faults else "")
print(f"docs/ARCHITECTURE.md: {len(faults)} faults")
sys.exit(1 if faults else 0)
