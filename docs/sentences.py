#!/usr/bin/env python3
"""sentences.py: that `tltool explain` says of each rule what docs/PROTOCOL.md does, of each fault what
docs/FORMATS.md does, that its shortest traces are those of crates/tl_examples/data/rules, and that
docs/TRIAGE.md has an entry for each rule. Run at the top of the repository; it prints what differs, and its exit status is 1 then."""
import re
import sys

RULES = ["L1", "L2", "L3", "L4", "L5", "L6", "L7", "S1"] + ["H%d" % i for i in range(1, 14)]
protocol = open("docs/PROTOCOL.md").read()
formats = open("docs/FORMATS.md").read()
source = open("crates/tl_explain/src/sentence.rt").read()
source = source[source.index("pub fn sentence") : source.index("pub fn basis")]
named = open("crates/tl_explain/src/named.rt").read()
example = open("crates/tl_explain/src/example.rt").read()
wrong = []

said = dict(re.findall(r"Rule::(\w+) => \{?\s*\"(.*?)\"", source, re.S))
for rule in RULES:
    messages = r" [^|]* \|" if rule[0] == "H" else ""
    row = re.search(r"^\| %s \|%s ([^|]*) \| [^|]* \|$" % (rule, messages), protocol, re.M)
    if row is None or said.get(rule) != row.group(1):
        wrong.append("%s: the sentences differ" % rule)
    for suffix in ["", "_right"]:
        trace = open("crates/tl_examples/data/rules/%s%s.trace" % (rule, suffix)).read()
        found = re.search(
            r"Rule::%s => Some\(Example \{(.*?)\}\)" % rule, example, re.S
        ).group(1)
        field = "right" if suffix else "wrong"
        text = re.search(r"%s: \"(.*?)\"," % field, found, re.S).group(1)
        text = re.sub(r"\\\n\s*", "", text).replace("\\n", "\n")
        if text != trace:
            wrong.append("%s%s: the traces differ" % (rule, suffix))
memory = open("crates/tl_explain/src/memory.rt").read()
for rule in ["M1", "M2", "M3", "M4"]:
    teller = re.search(r"MemoryRule::%s => (\w+)\(\)," % rule, memory).group(1)
    text = re.search(r"fn %s\(\) -> Explanation\b[^{]*\{[^}]*\}\n\{(.*?)\n\}" % teller, memory, re.S).group(1)
    field = lambda name: re.sub(r"\\\n\s*", "", re.search(r"\b%s: \"(.*?)\"," % name, text, re.S).group(1)).replace("\\n", "\n")
    row = re.search(r"^\| %s \| ([^|]*) \| ([^|]*) \| [^|]* \|$" % rule, protocol, re.M)
    if row is None or (field("messages"), field("sentence")) != row.groups():
        wrong.append("%s: the sentences differ" % rule)
    for suffix, name in [("", "wrong"), ("_right", "right")]:
        if field(name) != open("crates/tl_examples/data/rules/%s%s.trace" % (rule, suffix)).read():
            wrong.append("%s%s: the traces differ" % (rule, suffix))
commits = open("crates/tl_reasons/src/commit_rules.rt").read()
commits = commits[commits.index("pub fn grounds") :]
for rule in ["M5", "M6", "M7"]:
    text = re.search(r"CommitRule::%s => \{\s*\"(.*?)\"" % rule, commits, re.S).group(1)
    lines = [line.strip() for line in re.sub(r"\\\n\s*", "", text).split("\\n")]
    at = next(k for k, line in enumerate(lines) if line.startswith("right instead"))
    for suffix, shown in [("", lines[2:at]), ("_right", lines[at + 1 : -1])]:
        if shown != open("crates/tl_examples/data/rules/%s%s.trace" % (rule, suffix)).read().splitlines():
            wrong.append("%s%s: the traces differ" % (rule, suffix))
for fault in ["F2", "F3", "F4", "F5", "F6"]:
    row = re.search(r"^\| \d \| %s \| (.*) \|$" % fault, formats, re.M).group(1)
    if row not in named:
        wrong.append("%s: the sentences differ" % fault)
entries = re.findall(r"^### (\w+): ", open("docs/TRIAGE.md").read(), re.M)
if entries != [*RULES, *("M%d" % i for i in range(1, 8))]:
    wrong.append("docs/TRIAGE.md: its entries aren't those of the rules, in their order: %s" % entries)
print("\n".join(wrong) or "rules and faults say what the documents do")
sys.exit(1 if wrong else 0)
