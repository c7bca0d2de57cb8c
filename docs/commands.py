#!/usr/bin/env python3
"""commands.py TOOL: that the man page and the completions in share/ have the commands and options that TOOL's help shows,
no more and no less; that each command's help lists its codes, each with what `explain CODE` says of it; and that
`--version` names the logic of the toolchain that is here. Prints what differs, and its exit status is 1 then."""
import pathlib
import re
import subprocess
import sys

SHARE = pathlib.Path(__file__).resolve().parent.parent / "share"
# The help's own command, which has no page of its own.
HELP = "help"
RULES = [*(f"L{it}" for it in range(1, 8)), "S1", *(f"H{it}" for it in range(1, 14))]
TRACE = [*(f"F{it}" for it in range(1, 8)), *RULES]
TOGETHER = [*TRACE, *(f"M{it}" for it in range(1, 5))]
COMMITS = [*(f"M{it}" for it in range(5, 8))]
# The codes that each command can write.
CODES = {"decode": [f"F{it}" for it in range(1, 7)], "monitor": [*TRACE, "F9"], "explain": [*TOGETHER, "F9"], "chart": TRACE, "cover": [*TRACE, "F9"], "coherent": [*TOGETHER, *COMMITS, "F9"], "run": ["F1", "F7", "F8"], "random": []}


def section(text, name):
    """The lines of a part of the help, from its heading to the next empty line."""
    found = re.search(rf"^{name}:\n((?:.+\n)+)", text, re.M)
    return found[1] if found else ""


def said(*words):
    """What a command writes."""
    return subprocess.run(words, capture_output=True, text=True, check=True).stdout


def wrong_codes(tool):
    """The commands whose help lists other codes than theirs, or says something else of one than `explain` does."""
    sentence = lambda code: re.match(r"\w+(?: \([^)]*\))?: (.*)", said(tool, "explain", code))[1]
    # Of a schedule's line F1 is said of its length and its line feed alone.
    of_schedule = lambda code: sentence(code).split(", or fewer")[0] if code == "F1" else sentence(code)
    for command, codes in CODES.items():
        rows = re.findall(r"^  ([FLSHM]\d+) +(\S.*\n(?:       .*\n)*)", said(tool, command, "--help"), re.M)
        listed = {code: " ".join(text.split()) for code, text in rows}
        says = of_schedule if command == "run" else sentence
        if listed != {code: says(code) for code in codes}:
            yield f"tltool {command} --help: its codes, or what is said of them"


def wrong_version(tool):
    """The second line of `--version`, if it doesn't name the toolchain's logic, which several kits share."""
    proved = said(tool, "--version").splitlines()[1:]
    if proved != ["proved with Rattle, logic " + said("rt", "version").split()[-1]]:
        yield f"tltool --version: {proved}"


def of_help(tool):
    """The options of each command by the program's help, those of the program itself under an empty name."""
    options = lambda text: set(re.findall(r"^ +(?:-\w, )?--([a-z-]+)", section(text, "Options"), re.M))
    whole = said(tool, "--help")
    commands = set(re.findall(r"^  ([a-z]+)(?: |$)", section(whole, "Commands"), re.M)) - {HELP}
    return {"": options(whole), **{it: options(said(tool, it, "--help")) for it in commands}}


def of_man(text):
    """The same by the man page, which says of help and version once what holds of all."""
    found, command = {"": {"help", "version"}}, ""
    listed = text[text.index(".Ss Commands") : text.index(".Ss Codes")]
    for name, option in re.findall(r"^\.It (?:Cm (\w+)|Fl Fl ([a-z-]+))", listed, re.M):
        command = name or command
        found.setdefault(command, {"help"})
        if option:
            found[command].add(option)
    return found


def of_cases(text, first, case):
    """The same by a completion that has a case for each command."""
    found = {"": set(re.findall(r"--([a-z-]+)", first))}
    for name, body in re.findall(case, text, re.M | re.S):
        found[name] = set(re.findall(r"--([a-z-]+)", body))
    found.pop(HELP, None)
    return found


def of_bash(text):
    return of_cases(text, re.search(r"COMP_CWORD == 1.*?return", text, re.S)[0], r"^    (\w+)\) (.*?);;")


def of_zsh(text):
    return of_cases(text, re.search(r"CURRENT == 2.*?return", text, re.S)[0], r"^(\w+)\)\n(.*?);;")


def of_fish(text):
    found = {"": {"help", *re.findall(r"__fish_use_subcommand .*-l ([a-z-]+)", text)}}
    for name in set(re.findall(r"__fish_use_subcommand .*-a (\w+)", text)) - {HELP}:
        found[name] = {"help", *re.findall(rf"__fish_seen_subcommand_from {name}' -l ([a-z-]+)", text)}
    return found


def main():
    tool = sys.argv[1]
    wanted, wrong = of_help(tool), [*wrong_codes(tool), *wrong_version(tool)]
    readers = {"tltool.1": of_man, "completions/tltool.bash": of_bash, "completions/_tltool": of_zsh, "completions/tltool.fish": of_fish}
    for name, reader in readers.items():
        has = reader((SHARE / name).read_text())
        for command in sorted(wanted.keys() | has.keys()):
            if wanted.get(command) != has.get(command):
                wrong.append(f"share/{name}: {command or 'tltool'}: {has.get(command)}, and the help has {wanted.get(command)}")
    print("\n".join(wrong) or f"man page and completions: {len(wanted) - 1} commands as the help has them")
    return 1 if wrong else 0


sys.exit(main())
