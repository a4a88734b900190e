"""The lines of going on with what was stored: worked cases, words and builders changed one at a time, other lists of as many times, and a cut after every reading."""

import records
from model import TOP
from records import begin, lay, made, others, size, small_lists, times_of
from sarrays import all_of

MAX = TOP - 1

# Cases with the answers that the definition gives for them. u 20, n 4 has two low bits, and a start of 8 words.

EXAMPLES = """
# after a start, and after readings, accepted and refused; builder and words stay
buffer 10 9 -> ok
start 20 4 -> ok
resume -> ok
reading 3 -> ok
reading 2 -> refused 4
resume -> ok
reading 4 -> ok
reading 4 -> ok
reading 13 -> ok
resume -> ok
builder -> 20 4 4 13
words -> 0 0 0 0 0 0 77 67 9 9
# 7 by the builder's numbers
forge 20 4 5 13 -> ok
resume -> refused 7
forge 20 0 0 0 -> ok
resume -> refused 7
forge 20 16777217 4 13 -> ok
resume -> refused 7
forge 20 4 4 20 -> ok
resume -> refused 7
forge 20 4 0 13 -> ok
resume -> refused 7
# 7 by the words: another last, other numbers, a high bit too many
forge 20 4 4 12 -> ok
resume -> refused 7
forge 20 4 3 4 -> ok
resume -> refused 7
forge 21 4 4 13 -> ok
resume -> ok
forge 20 4 4 13 -> ok
poke 6 79 -> ok
resume -> refused 7
# what cannot be seen: one low bit changed, and the times are 2 4 4 13
poke 6 77 -> ok
poke 7 66 -> ok
resume -> ok
poke 7 67 -> ok
# 7 where a word of the header is set; a finish takes these words
poke 0 1 -> ok
resume -> refused 7
poke 0 0 -> ok
poke 5 18446744073709551615 -> ok
resume -> refused 7
builder -> 20 4 4 13
finish 0 -> 10
# what a finish left is not gone on with
resume -> refused 7
# 3 by the size of the start comes after 7 by the numbers, and before the words
buffer 7 1 -> ok
resume -> refused 7
forge 20 4 4 13 -> ok
resume -> refused 3
forge 20 4 4 20 -> ok
resume -> refused 7
# out of form
resume 1 -> bad command
resume x -> bad command
"""

# Making lines.


def add_cuts(add):
    add.note("gone on with after the start and after each reading; the words of the start are enough, and one less is not")
    for u, n in ((0, 1), (1, 1), (20, 4), (63, 64), (64, 64), (65, 64), (MAX, 1), (MAX, 3), (2**63, 2), (157_680_000, 100)):
        begin(add, u, n)
        add("resume")
        times = times_of(add.rng, u, min(n, 6))
        for t in times:
            add("reading", t)
            add("resume")
        add("words")
        lay(add, u, n, times, size(u, n) - 1)
        add("resume")


def add_changed(add, count):
    add.note("words of the start changed one at a time")
    rng = add.rng
    for _ in range(count):
        n = rng.choice((1, 2, 4, 9, 40, 70))
        u = rng.choice((n, 3 * n, 20 * n, 1_000 * n, rng.randrange(1, 2**40), MAX))
        times = times_of(rng, u, rng.randint(0, n))
        filed = lay(add, u, n, times, size(u, n) + rng.randrange(3))
        add("resume")
        for i in rng.sample(range(len(filed)), min(4, len(filed))):
            for v in rng.sample(others(add, filed[i]), 2):
                add("poke", i, v)
                add("resume")
            add("poke", i, filed[i])
        add("resume")


def add_forged(add, count):
    add.note("a number of the builder changed")
    rng = add.rng
    for _ in range(count):
        n = rng.choice((1, 2, 4, 9, 40))
        u = rng.choice((n, 3 * n, 20 * n, rng.randrange(1, 2**40), MAX))
        times = times_of(rng, u, rng.randint(0, n))
        lay(add, u, n, times, size(u, n) + 1)
        numbers = [u, n, len(times), times[-1] if times else 0]
        for k, x in enumerate(numbers):
            forged = list(numbers)
            forged[k] = rng.choice(others(add, x))
            add("forge", *forged)
            add("resume")


def add_resumes(add, count):
    for command, _ in records.pairs(EXAMPLES):
        add(command)
    add_cuts(add)
    add_changed(add, count)
    add_forged(add, count)
    add.note("an image is not gone on with")
    all_of(add, ("buffer 20 0", *made(20, 4, (3, 4, 4, 13)), "finish 1", "resume", "reading 13", "resume"))


def exhaustive():
    """Every small list, gone on with by its own builder and by those with other small numbers."""
    lines = []
    for u, n, times in small_lists():
        lines += ["buffer 20 0", *made(u, n, times), "resume"]
        for m in range(n + 2):
            lines += [line for last in range(u + 1) for line in (f"forge {u} {n} {m} {last}", "resume")]
    return [line.encode() for line in lines]
