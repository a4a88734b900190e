"""Asks the Rust, through the oracle's line protocol."""

import subprocess
import sys

TOP = 2**64


def ask(oracle, lines):
    """The oracle's answers, one for each line."""
    text = "".join(line + "\n" for line in lines)
    done = subprocess.run([oracle], input=text.encode(), stdout=subprocess.PIPE, check=True)
    answers = done.stdout.decode().split("\n")[:-1]
    if len(answers) != len(lines):
        sys.exit(f"the oracle gave {len(answers)} answers to {len(lines)} lines")
    return answers


def image(parts):
    """The record's image, in the order of the document, from what the oracle's `parts` shows."""
    numbers, high, low, *indexes = parts.split(" ; ")
    u, n, m, rank, _ = map(int, numbers.split())
    words, overflow = [], []
    for part in (high, low):
        words += map(int, part.split(":")[1].split())
    for part in indexes:
        _, entries, lanes, far = (list(map(int, field.split())) for field in part.split("|"))
        words += [e % TOP for e in entries]
        words += [sum(x << 16 * i for i, x in enumerate(lanes[at : at + 4])) for at in range(0, len(lanes), 4)]
        words += far
        overflow.append(len(far))
    return [u, n, m, rank, *overflow, *([0] * (2 - len(overflow))), *words]


def high_length(parts):
    """The number of the record's high bits, from the same."""
    return int(parts.split(" ; ")[1].split(" ")[0])
