"""Lines of the shell that give the command a trace, and what it writes of lines that aren't of the form."""

F1, F2, F3, F7, F8 = ("line {} %s\n" % it for it in ("F1", "F2", "F3", "F7", "F8"))

# Beats of a link, without its number.
PERM, GRANT, PROBE = "A 7 1 6 00 00000000 ff - 0", "D 4 0 6 00 00 0 - 0", "B 6 2 6 00 00000000 ff - 0"


def printed(lines):
    """Prints these lines."""
    words = " ".join(f"'{it}'" for it in lines)
    return f"printf '%s\\n' {words}"


def trace(header, beats):
    """Prints a trace whose beats are all of link 00."""
    return printed([header, *(f"00 {it}" for it in beats)])


def judged(liberties, beats, command="monitor"):
    """A trace of one link that has these liberties."""
    return f"{trace(f'tltrace 4 8 {liberties} C', beats)} | tltool {command}"


def allowed(header, liberties, beats, options="", command="monitor"):
    """A trace of one link that is allowed these liberties besides those of the header."""
    return f"{trace(header, beats)} | tltool {command} --allow {liberties} {options}"
