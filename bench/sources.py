"""What `bench/check` and `bench/graph` go by: an ordinary source of 1 MiB and three that are made to be hard
(1,024 locals with 1,024 branches behind them; blocks 63 deep with locals at each level; calls with 16 arguments each),
and how long a mode of the program needs for one, and how much memory."""
import os
import subprocess
import tempfile
import time

MOST = 1048576
MAIN = "method void main() { }\n"
SPLIT = "method void main() { group g; split g { } }\n"
CLASSES = """class Box { int v; unique Ints items; }
class Pair { unique Box first; unique Box second; immutable Ints shape; }
"""
LETTERS = "abcdefghijklmnop"


def filled(head, part):
    out, size = [head], len(head) + len(SPLIT)
    while True:
        text = part(len(out) - 1)
        if size + len(text) > MOST:
            return "".join(out) + MAIN
        out.append(text)
        size += len(text)


def ordinary(i):
    return f"""method int part{i}(unique Pair p, immutable Ints shape, int first, int second) {{
    let int left = first * (second + {i}) - 7;
    let unique Box box = new Box(left, null);
    let int total = p.first.v;
    while left > 0 && total <= {i} {{
        total = total + shape[left % 5] + len p.second.items;
        left = left - first;
        if total == {i} {{
            total = part0(p, shape, left, total * 2 + 1);
            p.second.v = total;
        }} else {{
            p.first.items[0] = -total;
        }}
    }}
    p.first = box;
    return total;
}}
"""


def branches(i):
    declared = "".join(f"let unique Box a{n} = null;" for n in range(1000))
    used = "".join(f"if a{n} == null {{ a{n} = null; }} else {{ }}" for n in range(1000))
    return f"method void m{i}() {{ if true {{ {declared} if true {{ {used} }} }} }}\n"


def deep(i):
    opened = "".join(f"if true {{ let unique Box a{i}_{n} = null; let int b{i}_{n} = 1; a{i}_{n} = null;"
                     for n in range(62))
    return f"method void m{i}() {{ {opened} {'}' * 62} }}\n"


def calls(i):
    declared = "".join(f"let unique Box {letter} = null;" for letter in LETTERS)
    return f"method void m{i}() {{ {declared} " + f"f({', '.join(LETTERS)});" * 900 + " }\n"


def called():
    return f"method void f({', '.join(f'lent Box p{n}' for n in range(16))}) {{ }}\n"


SOURCES = {
    "ordinary": filled(CLASSES, ordinary),
    "locals and branches": filled(CLASSES, branches),
    "deep blocks": filled(CLASSES, deep),
    "calls": filled(CLASSES + called(), calls),
}


def with_split(text):
    """A source of these with a `split` in its `main`: `aem run` reads all of it, and refuses it as not built."""
    return text.removesuffix(MAIN) + SPLIT


class Run:
    """What a mode says of a source first, how many seconds it takes, and how many KiB it has at most."""

    def __init__(self, mode, text):
        with tempfile.TemporaryFile("w+") as source, tempfile.TemporaryFile("w+") as said:
            source.write(text)
            source.flush()
            source.seek(0)
            start = time.perf_counter()
            process = subprocess.Popen(["./aem", mode], stdin=source, stdout=said)
            _, _, used = os.wait4(process.pid, 0)
            self.seconds = time.perf_counter() - start
            self.memory = used.ru_maxrss
            said.seek(0)
            self.said = said.readline()


def best(mode, text, times=5):
    return min((Run(mode, text) for _ in range(times)), key=lambda run: run.seconds)
