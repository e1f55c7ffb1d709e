"""The bench program or the rig at the other end of a pipe: a line typed, a line back."""
import subprocess, sys
from pathlib import Path

ROOT = Path(__file__).resolve().parent.parent


class Talk:
    def __init__(self, name):
        self.name = name
        self.program = subprocess.Popen([ROOT / name], stdin=subprocess.PIPE, stdout=subprocess.PIPE, text=True, bufsize=1)

    def __enter__(self):
        return self

    def __exit__(self, *_):
        self.program.stdin.close()
        self.program.wait()

    def ask(self, line):
        self.program.stdin.write(line + "\n")
        self.program.stdin.flush()
        answer = self.program.stdout.readline()
        if not answer:
            sys.exit(f"{self.name} was not built, or has ended")
        return answer[:-1]


def is_busy(answer):
    """Of the status byte: bit 5 is 1 when ready."""
    return not ord(answer[0]) & 0x20


def number_of(answer):
    """Of the status byte: the low four bits are the number."""
    return ord(answer[0]) & 15
