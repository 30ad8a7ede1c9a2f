"""Changes a word or a number of a report, so that one sees whether the judge refuses what isn't lawful."""

import random

WORDS = (
    "at clear copy crew dead done empty end entry export field finalise full going import joined kept kind memory more"
    " next node null objects ok pages pause phase prefinalise queued refused reply stack start started step swept to"
    " totals traced type upgrade used walked weaken word"
).split()


def changed_word(chance, word):
    """Another word, or a number near by."""
    if not word.isdigit():
        return WORDS[int(chance() * len(WORDS))]
    near = (int(word) + 1, max(int(word) - 1, 0), int(chance() * 10))
    return str(near[int(chance() * len(near))])


def changes(text, count, seed):
    """So many of these: the number of a line, the line as it was, and the report in which a word of it is changed."""
    chance, lines = random.Random(seed).random, text.split("\n")[:-1]
    for _ in range(count):
        at = int(chance() * len(lines))
        words = lines[at].split(" ")
        i = int(chance() * len(words))
        words[i] = changed_word(chance, words[i])
        line = " ".join(words)
        if line != lines[at]:
            yield at + 1, line, "\n".join([*lines[:at], line, *lines[at + 1 :]]) + "\n"
