#!/usr/bin/env python3
"""words.py: that the pages, and the comments of public items and of statements, keep to plain words. Run at the top of the
repository.

Each pattern below is one that a reader stumbles over. docs/words.txt has the phrases that may be anywhere. Code, sessions and
words in backquotes aren't looked at."""
import pathlib
import re
import sys

ROOT = pathlib.Path(__file__).resolve().parent.parent
PATTERNS = [
    r"\b(?:told|tells?|telling)\b",
    r"\b(?:stands?|stood|standing)\b(?! for\b)",
    r"\bbehind\b",
    r"\b(?:of|by|from|to|in|with|beyond|than|but|as) what\b",
    r"\bwhat (?:is|was|are|were) (?:kept|said|noted|carried|taken|given|brought)\b",
    r"\b(?:of|by|to|from|in|on|with) (?:which|whom) (?:no|nothing|none)\b",
    r"\bso (?:is|are|does|do) (?:of|for|in|by)\b",
    r"\bwhere (?:it|that|there|nothing|none|no) (?:is|are|isn't|was|were|has|does)\b",
    r"\b(?:anew|all the while|besides)\b",
]
# In a comment a noun says more than "what", and "if" and "while" more than "where".
IN_COMMENTS = [r"\bwhat\b", r"\bwhere\b"]


def prose(text):
    """A page's sentences: without sessions, code and links' targets."""
    text = re.sub(r"^(?:    |\t).*$", "", text, flags=re.M)
    text = re.sub(r"^```.*?^```", "", text, flags=re.M | re.S)
    text = re.sub(r"`[^`\n]*`", "`", text)
    return re.sub(r"\]\([^)\n]*\)", "]", text)


def comments(text):
    """The comments of a source, each on its line. The other lines are empty."""
    lines = [re.match(r"\s*(?://[/!]|--)(.*)", line) for line in text.splitlines()]
    return "\n".join(it[1] if it else "" for it in lines)


def hits(path, phrases):
    """The lines of a page or a source with a hit in them, one for each hit."""
    text, is_page = (ROOT / path).read_text(), path.endswith(".md")
    text = prose(text if is_page else comments(text))
    for phrase in phrases:
        text = re.sub(re.escape(phrase), lambda it: "-" * len(it[0]), text, flags=re.I)
    found = []
    for number, line in enumerate(text.splitlines(), 1):
        for pattern in PATTERNS if is_page else PATTERNS + IN_COMMENTS:
            found += [f"{path}:{number}: {line[max(it.start() - 30, 0) : it.end() + 30]}" for it in re.finditer(pattern, line, re.I)]
    return found


def allowed():
    """The phrases that any page or comment may have."""
    return [line for line in (ROOT / "docs/words.txt").read_text().splitlines() if line and not line.startswith("#")]


def pages():
    return sorted(str(it.relative_to(ROOT)) for it in [ROOT / "README.md", *ROOT.glob("docs/*.md"), ROOT / "benches/README.md"])


def sources():
    """The sources with comments of public items, and those of statements."""
    globs = ["src/**/*.rt", "specs/statement/**/*.antt", "specs/laws/**/*.antt"]
    return sorted(str(it.relative_to(ROOT)) for glob in globs for it in ROOT.glob(f"crates/*/{glob}"))


def main():
    phrases = allowed()
    faults = [fault for path in pages() + sources() for fault in hits(path, phrases)]
    print(*faults, sep="\n", end="\n" if faults else "")
    print(f"words: {len(faults)} faults")
    return 1 if faults else 0


if __name__ == "__main__":
    sys.exit(main())
