"""Runs of a model: a right one many times, and each wrong one a tenth as often."""
import argparse

from trial.traces import folder_of, write


class Runs:
    """What the words of a command ask for. Blocks have 16 beats of four bytes where traces are written, and else four beats."""

    def __init__(self):
        words = argparse.ArgumentParser()
        words.add_argument("--runs", type=int, default=1000)
        words.add_argument("--steps", type=int, default=600)
        words.add_argument("--without", default="")
        words.add_argument("--show", action="store_true")
        words.add_argument("--traces")
        asked = words.parse_args()
        self.right, self.steps, self.shows = asked.runs, asked.steps, asked.show
        self.left_out = set(filter(None, asked.without.split(",")))
        self.folder = folder_of(asked.traces) if asked.traces else None
        self.beats = 16 if asked.traces else 4

    def bugs(self, known):
        """What is tried: no bug, and each of these, unless parts of the rules are left out."""
        return [None, *([] if self.left_out else known)]

    def seeds(self, bug):
        return range(self.right if bug is None else max(1, self.right // 10))

    def write(self, bug, seed, header, lines, verdict):
        """Writes the trace of a run."""
        write(self.folder, f"{(bug or 'right').replace(' ', '_')}_{seed}", header, lines, verdict)

    def tell(self, log):
        """Prints beats, one a line."""
        for beat in log:
            message = beat.message
            print(f"{message.link} {message.channel} {message.opcode} {beat.index}/{message.beats} block {message.block} at {message.at} "
                  f"size {message.size or self.beats} param {message.param} value {beat.value}")
