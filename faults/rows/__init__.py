"""The rows that faults/uses.py tries, by subject. A row is a line of the shell, its status, and what is written to standard output and
standard error, whole or, where it ends in '..', its beginning."""
from rows import charts, commits, explanations, files, judging, liberties, situations, wide_beats, words

SUBJECTS = (words, wide_beats, judging, commits, explanations, charts, situations, files)


def all_rows(data):
    """All rows, with the examples in this folder."""
    return [*(row for subject in SUBJECTS for row in subject.ROWS), *liberties.rows(data)]
