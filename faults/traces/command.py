"""Calls of the command."""
import subprocess
import tempfile


def of(tool, *words, text=None):
    """The status of a command and what it writes."""
    ran = subprocess.run([tool, *words], input=text, capture_output=True, text=True, timeout=60)
    return ran.returncode, ran.stdout


def of_file(tool, *words, text):
    """The same of a file with this text."""
    with tempfile.NamedTemporaryFile("w", suffix=".trace") as file:
        file.write(text)
        file.flush()
        return of(tool, *words, file.name)


def options_of(seed, events, clients, width, *others):
    """The options of `random` for a small world: each combination of few values comes with some seed."""
    blocks = (1, 2, 5, 64)[seed % 4]
    return ["--seed", str(seed), "--events", str(events), "--blocks", str(blocks), "--trackers", str((1, 2, 8)[seed % 3]),
        "--clients", clients, "--width", width, *others, "--contend", str(1 + seed % blocks)]
