"""What a call costs by the face for programs, the crate `oilpan`, and by the engine's commands.

The loops are the program in face/, a crate of which each file's name has `.in` after it, since the gate reads no crate
that crates.txt doesn't list. It is built in a copy of this checkout, and kept until one of the sources is another.
"""

import hashlib
import os
import re
import shutil
import subprocess
import sys
import tempfile

HERE = os.path.dirname(os.path.abspath(__file__))
ROOT = os.path.dirname(HERE)
SOURCES = os.path.join(HERE, "face")
NAME = "embedding_loops"
LINE = f"{NAME}: gc_graph type_table heap_engine oilpan anyhow\n"
PARTS = ("src", "specs", "proofs")
PROGRAM = os.path.join(HERE, "out", NAME)
BUILT_OF = PROGRAM + ".sources"
CALLGRIND = ["valgrind", "--tool=callgrind", "--callgrind-out-file=/dev/null"]

# What a turn does by the face, and the commands that do the same.
TURNS = {
    "get_and_release": ("get", "drop"),
    "get_null": ("get_null",),
    "set": ("set",),
    "word": ("word",),
    "put_word": ("put_word",),
    "make_and_release": ("make", "drop"),
}
COMMANDS = ("get", "get_null", "set", "word", "put_word", "make", "drop")
GET_BAR = 1.15


def files_below(folder):
    return sorted(os.path.join(at, name) for at, _, names in os.walk(folder) for name in names)


def crates():
    return sorted(os.listdir(os.path.join(ROOT, "crates")))


def sources():
    """A sum of all that the program is built of."""
    found = hashlib.sha256()
    folders = [os.path.join(ROOT, "crates", crate, part) for crate in crates() for part in PARTS]
    for folder in [SOURCES, *folders]:
        for path in files_below(folder):
            with open(path, "rb") as file:
                found.update(os.path.relpath(path, ROOT).encode() + b"\0" + file.read() + b"\0")
    return found.hexdigest()


def is_built(stamp):
    if not os.path.exists(PROGRAM) or not os.path.exists(BUILT_OF):
        return False
    with open(BUILT_OF, encoding="utf-8") as file:
        return file.read() == stamp


def copy_checkout(top):
    """Copies the crates, with the program of the loops among them."""
    for crate in crates():
        for part in PARTS:
            folder = os.path.join(ROOT, "crates", crate, part)
            if os.path.isdir(folder):
                shutil.copytree(folder, os.path.join(top, "crates", crate, part))
    for path in files_below(SOURCES):
        place = os.path.join(top, "crates", NAME, os.path.relpath(path, SOURCES).removesuffix(".in"))
        os.makedirs(os.path.dirname(place), exist_ok=True)
        shutil.copy(path, place)
    shutil.copy(os.path.join(ROOT, "HANDLES"), top)
    with open(os.path.join(ROOT, "crates.txt"), encoding="utf-8") as file:
        listed = file.read()
    with open(os.path.join(top, "crates.txt"), "w", encoding="utf-8") as file:
        file.write(listed + LINE)


def call_rt(folder, *words):
    """Runs rt in a crate's folder, and ends the bench with what it says if it fails."""
    ran = subprocess.run(["rt", *words], cwd=folder, stdout=subprocess.PIPE, stderr=subprocess.STDOUT, check=False)
    if ran.returncode != 0:
        sys.exit(ran.stdout.decode(errors="replace") + "bench: the program of the loops could not be built")


def build():
    """Proves and builds the program, if it isn't built from the sources as they are. It takes the libraries that were
    proved in this checkout, and `oilpan` is proved there first."""
    stamp = sources()
    if is_built(stamp):
        return
    call_rt(os.path.join(ROOT, "crates", "oilpan"), "lib")
    with tempfile.TemporaryDirectory() as top:
        copy_checkout(top)
        folder = os.path.join(top, "crates", NAME)
        call_rt(folder, "run", "--", "face", "get", "1")
        os.makedirs(os.path.dirname(PROGRAM), exist_ok=True)
        shutil.copy(os.path.join(folder, "out", NAME), PROGRAM)
    with open(BUILT_OF, "w", encoding="utf-8") as file:
        file.write(stamp)


def instructions(way, loop, count):
    ran = subprocess.run([*CALLGRIND, PROGRAM, way, loop, str(count)], stderr=subprocess.PIPE, check=True)
    return int(re.search(r"Collected : (\d+)", ran.stderr.decode(errors="replace")).group(1))


def cost(way, loop, count):
    """Instructions of a turn, with the loop around it."""
    return (instructions(way, loop, 2 * count) - instructions(way, loop, count)) / count


def tell(figures, count):
    """Tells what a turn costs by the face, and that over what its commands cost. Answers the former."""
    build()
    by_face = {name: cost("face", commands[0], count) for name, commands in TURNS.items()}
    by_act = {command: cost("act", command, count) for command in COMMANDS}
    for command, found in by_act.items():
        figures.tell(f"act_{command}_instructions", found)
    for name, commands in TURNS.items():
        ratio = by_face[name] / sum(by_act[command] for command in commands)
        figures.tell(f"face_{name}_instructions", by_face[name])
        figures.tell(f"face_{name}_over_act_ratio", ratio, GET_BAR if name.startswith("get") else None)
    return by_face
