"""The report of a run: a page in HTML that stands alone, and JUnit's XML."""

import base64
import html
from xml.sax.saxutils import escape, quoteattr

STYLE = """
:root { color-scheme: light dark; --ink: #0f172a; --dim: #526077; --paper: #ffffff; --card: #f4f6fa; --line: #d5dbe5; --bad: #b91c1c;
  --good: #15803d; }
@media (prefers-color-scheme: dark) {
  :root { --ink: #e2e8f0; --dim: #9aa8bd; --paper: #0f172a; --card: #1b2740; --line: #34435e; --bad: #f87171; --good: #86efac; }
}
body { margin: 0 auto; max-width: 62rem; padding: 1.5rem 1rem 4rem; font: 16px/1.5 system-ui, sans-serif; color: var(--ink);
  background: var(--paper); }
h1 { font-size: 1.5rem; margin: 0; }
h2 { font-size: 1.15rem; margin: 2.2rem 0 .6rem; }
h3 { font-size: 1rem; margin: 1.4rem 0 .3rem; }
p { margin: .4rem 0; }
.dim { color: var(--dim); }
.bad { color: var(--bad); font-weight: 600; }
.good { color: var(--good); font-weight: 600; }
pre { background: var(--card); border: 1px solid var(--line); border-radius: 6px; padding: .7rem .9rem; overflow-x: auto;
  font-size: .85rem; line-height: 1.4; }
.wide { overflow-x: auto; }
table { border-collapse: collapse; width: 100%; font-size: .92rem; }
th, td { text-align: left; padding: .3rem .9rem .3rem 0; border-bottom: 1px solid var(--line); vertical-align: top; }
th { color: var(--dim); font-weight: 600; white-space: nowrap; }
td.number, th.number { text-align: right; font-variant-numeric: tabular-nums; white-space: nowrap; }
td.name { white-space: nowrap; }
td.text { min-width: 18rem; }
td code { display: inline-block; min-width: 18rem; overflow-wrap: anywhere; }
td.seeds { white-space: nowrap; line-height: 1; padding-top: .55rem; }
td.seeds i { display: inline-block; width: .5rem; height: .75rem; margin-right: 1px; background: var(--line); }
td.seeds i.on { background: var(--good); }
img { display: block; box-sizing: border-box; border: 1px solid var(--line); border-radius: 6px; }
"""


class Fault:
    """Seeds with the same fault: the first of them is explained."""

    def __init__(self, name, seeds, explained, command):
        self.name, self.seeds, self.explained, self.command = name, seeds, explained, command


def page(title, command, about, seeds, faults, sections):
    """The page. `sections` are further pairs of a heading and HTML, as of what was covered."""
    at_fault = sum(1 for seed in seeds if seed.fault)
    verdict = (f'<p class="bad">{at_fault} of {len(seeds)} seeds at fault</p>' if at_fault
               else f'<p class="good">No fault in {len(seeds)} seeds</p>')
    parts = [f"<h1>{html.escape(title)}</h1>", verdict, f'<p class="dim">{html.escape(about)}</p>', f"<pre>{html.escape(command)}</pre>"]
    parts += [of_fault(fault) for fault in faults]
    parts += [f"<h2>{html.escape(heading)}</h2>\n{body}" for heading, body in sections]
    parts.append(f"<h2>Seeds</h2>\n{table(seeds)}")
    head = ['<!DOCTYPE html>', '<html lang="en">', "<head>", '<meta charset="utf-8">',
            '<meta name="viewport" content="width=device-width, initial-scale=1">', f"<title>{html.escape(title)}</title>",
            f"<style>{STYLE}</style>", "</head>", "<body>"]
    return "\n".join([*head, *parts, "</body>", "</html>", ""])


def of_fault(fault):
    first = fault.seeds[0]
    others = ", ".join(str(seed.number) for seed in fault.seeds[1:])
    parts = [f"<h2>{html.escape(heading(fault))}</h2>",
             f"<p>Seed {first.number}, cycle {first.cycles}, found by the {first.by}: <code>{html.escape(first.text)}</code></p>",
             f'<p class="dim">Seeds with the same: {others}</p>' if others else "",
             f"<pre>{html.escape(fault.explained.text)}</pre>" if fault.explained.text else ""]
    if fault.explained.chart:
        data = base64.b64encode(fault.explained.chart.encode()).decode()
        parts.append(f'<div class="wide"><img alt="The block\'s messages before the fault" src="data:image/svg+xml;base64,{data}"></div>')
    parts.append(f"<p>This seed again, with waves:</p>\n<pre>{html.escape(fault.command)}</pre>")
    return "\n".join(it for it in parts if it)


def heading(fault):
    count = f"{len(fault.seeds)} seed{'s' if len(fault.seeds) > 1 else ''}"
    return f"{fault.name}: {count}"


def table(seeds):
    rows = "\n".join(
        f'<tr><td class="number">{seed.number}</td><td class="{"bad" if seed.fault else "good"}">{html.escape(seed.fault or "clean")}</td>'
        f'<td class="number">{shown(seed.cycles)}</td><td class="number">{shown(seed.beats)}</td><td class="number">{seed.seconds:.1f}</td>'
        f"<td><code>{html.escape(seed.text)}</code></td></tr>" for seed in seeds)
    return ('<div class="wide"><table>\n<thead><tr><th class="number">Seed</th><th>Verdict</th><th class="number">Cycles</th>'
            '<th class="number">Beats</th><th class="number">Seconds</th><th>What was found</th></tr></thead>\n'
            f"<tbody>\n{rows}\n</tbody>\n</table></div>")


CELLS = 40  # of so many seeds each has a cell in the rows of situations


def of_situations(covered, seeds):
    """How often each situation came, in how many seeds, and which didn't come."""
    sentences = covered.table.sentences
    holes = [(name, sentences[name]) for name in covered.holes]
    never = [(name, sentences[name], reason) for name, reason in covered.never.items()]
    parts = ["<p>Each situation is counted at the first beats of the messages that begin in it.</p>"]
    if holes:
        parts += ['<h3 class="bad">Not seen</h3>', of_names(["Situation", "The message that begins"], holes)]
    parts += ["<h3>Seen</h3>", of_seen(covered, seeds)]
    if never:
        parts += ["<h3>Can't come here</h3>", of_names(["Situation", "The message that begins", "Why not"], never)]
    return "\n".join(parts)


def of_bins(covered, levels):
    """The table of each link: how often messages began in each bin that one of the links can have."""
    rows = []
    for name, counts in covered.bins.items():
        if any(count is not None for count in counts):
            cells = "".join(f"<td class=\"number{' bad' if count == 0 else ''}\">{shown(count)}</td>" for count in counts)
            rows.append(f'<td class="name">{name}</td>{cells}')
    heads = "".join(f"<th class=number>Link {link} ({level})</th>" for link, level in enumerate(levels))
    body = "\n".join(f"<tr>{row}</tr>" for row in rows)
    return (f'<p>{covered.bin_summary}. An empty cell is a bin that the link can\'t have.</p>\n<div class="wide"><table>\n'
            f"<thead><tr><th>Bin</th>{heads}</tr></thead>\n<tbody>\n{body}\n</tbody>\n</table></div>")


def of_names(heads, rows):
    return rows_under(heads, [f'<td class="name">{name}</td>' + "".join(f'<td class="text">{html.escape(it)}</td>' for it in rest)
                              for name, *rest in rows])


def of_seen(covered, seeds):
    """A row for each situation that came, with a cell for each seed if these are few."""
    rows = []
    for name in covered.seen:
        cells = "".join(f'<i{" class=on" if name in seed.situations else ""} title="seed {seed.number}: {seed.situations.get(name, 0):,}"></i>'
                        for seed in seeds[:CELLS])
        rows.append(f'<td class="name">{name}</td><td class="number">{covered.messages[name]:,}</td>'
                    f'<td class="number">{len(covered.seeds[name])} of {len(seeds)}</td><td class="seeds">{cells}</td>'
                    f'<td class="text">{html.escape(covered.table.sentences[name])}</td>')
    return rows_under(["Situation", "Messages", "Seeds", "By seed", "The message that begins"], rows)


def rows_under(heads, rows):
    """A table of rows whose cells are HTML."""
    numbers = ("Messages", "Seeds")
    head = "".join(f"<th{' class=number' if it in numbers else ''}>{it}</th>" for it in heads)
    body = "\n".join(f"<tr>{row}</tr>" for row in rows)
    return f'<div class="wide"><table>\n<thead><tr>{head}</tr></thead>\n<tbody>\n{body}\n</tbody>\n</table></div>'


def shown(number):
    return "" if number is None else f"{number:,}"


def junit(title, seeds, covered):
    """A test case for each seed, and as properties how often each situation came."""
    at_fault = sum(1 for seed in seeds if seed.fault)
    lines = ['<?xml version="1.0" encoding="UTF-8"?>', f'<testsuite name={quoteattr(title)} tests="{len(seeds)}" failures="{at_fault}">',
             "  <properties>", f'    <property name="situations" value={quoteattr(covered.summary)}/>']
    lines += [f'    <property name="situation {name}" value="{covered.messages[name]}"/>' for name in covered.table.sentences]
    lines.append("  </properties>")
    for seed in seeds:
        case = f'  <testcase classname={quoteattr(title)} name="seed {seed.number}" time="{seed.seconds:.2f}"'
        if seed.fault:
            text = escape(plain(f"cycle {seed.cycles}: {seed.text}"))
            lines += [f"{case}>", f"    <failure message={quoteattr(seed.fault)}>{text}</failure>", "  </testcase>"]
        else:
            lines.append(f"{case}/>")
    return "\n".join([*lines, "</testsuite>", ""])


def plain(text):
    """Without what XML can't have."""
    return "".join(it if it in "\t\n" or it >= " " else "?" for it in text)
