"""The words of a command line and the lines of a script, by docs/FORMATS.md. Both have no fault."""

WAYS_OF_THREE = {
    0: "new 1 0|put 1 3 {i}|set 1 2 0|get 0 0 3|set 1 1 3|set 0 0 1|copy 1 2|drop 1|drop 3",
    1: "new 1 0|put 1 3 {i}|set 1 2 0|get 2 0 3|set 1 1 3|set 2 0 1|copy 1 2|drop 1|drop 3",
    2: "new 1 0|new 4 1|set 4 0 5|copy 4 5|new 6 0|set 6 0 1|pair 4 1 1 6|weak {w} 1|drop 1|drop 4|drop 6",
}


class Options:
    """What the words ask for: the shape of the heap, its markers, a summary, a generated script."""

    def __init__(self, words):
        words = list(words)
        self.summary = "--summary" in words
        asked = {"--pages": 64, "--page-words": 16384, "--markers": 0, "--generate": None, "--count": None}
        words = [part for word in words if word != "--summary" for part in word.split("=", 1)]
        asked.update(zip(words[::2], map(int, words[1::2])))
        self.pages, self.page_words, self.markers, self.seed, self.count = asked.values()


class Type:
    """What a type line declares."""

    def __init__(self, letters, callbacks):
        self.kinds = "" if letters == "-" else letters
        self.callbacks = callbacks
        self.words = sum(2 if kind == "E" else 1 for kind in self.kinds)


def command_of(words):
    """A command's name, and then its numbers; None for `-`, for `all`, and an order with its own words."""
    name, *rest = words
    if name == "at":
        return name, int(rest[0]), tuple(rest[1:])
    if name in ("gc", "threads"):
        name, rest = f"{name} {rest[0]}", rest[1:]
    if name == "new" and len(rest) == 2:
        rest = [*rest, "0"]
    return name, *(int(it) if it.isdigit() else None if it in ("-", "all") else it for it in rest)


def script_of(text):
    """The types of a script, and its commands."""
    types, commands = [], []
    for line in text.split("\n")[1:]:
        words = line.split()
        if words[:1] == ["type"]:
            types.append(Type(words[1], [int(it) for it in words[3:]]))
        elif words:
            commands.append(command_of(words))
    return types, commands


def turn_of(i, number):
    """The commands of turn i, in which this number was taken."""
    has_cycle = i >= 4 and i & (i - 1) == 0
    commands = ["gc start", "gc step 2"] if has_cycle else []
    commands += WAYS_OF_THREE[number % 3].format(i=i, w=i % 64).split("|")
    return commands + (["gc finish precise", "gc now precise", "sweep all"] if has_cycle else [])


def generated(seed, count):
    """The text of the generated script."""
    lines = ["oilpan 1", "type SSWP", "type SE", "new 0 0", "copy 0 2"]
    number = seed % 65537
    for i in range(1, count + 1):
        number = (number * 75 + 74) % 65537
        lines += turn_of(i, number)
    return "\n".join([*lines, "gc now precise", "sweep all"]) + "\n"
