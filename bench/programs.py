"""Six programs for `bench/run`, each in the language, in Python and in Lua, and how long each of the three needs."""
import os
import shutil
import subprocess
import sys
import tempfile
import time

ROUNDS = 5
NAMES = range(1023)

LOOP = ("""method void main() with exclusive io {
    let int i = 0;
    let int a = 1;
    let int b = 2;
    while i < 100000 {
        a = (a * 3 + b) % 1000003;
        b = (b + a) % 999983;
        i = i + 1;
    }
    print a + b;
}
""", """def main():
    i, a, b = 0, 1, 2
    while i < 100000:
        a = (a * 3 + b) % 1000003
        b = (b + a) % 999983
        i = i + 1
    print(a + b)
main()
""", """local i, a, b = 0, 1, 2
while i < 100000 do
    a = (a * 3 + b) % 1000003
    b = (b + a) % 999983
    i = i + 1
end
print(a + b)
""")

CALLS = ("""method int fib(int n) {
    let int r = n;
    if n > 1 {
        let int a = fib(n - 1);
        let int b = fib(n - 2);
        r = a + b;
    }
    return r;
}
method void main() with exclusive io {
    let int r = fib(23);
    print r;
}
""", """def fib(n):
    r = n
    if n > 1:
        a = fib(n - 1)
        b = fib(n - 2)
        r = a + b
    return r
print(fib(23))
""", """local function fib(n)
    local r = n
    if n > 1 then
        local a = fib(n - 1)
        local b = fib(n - 2)
        r = a + b
    end
    return r
end
print(fib(23))
""")

ARRAY = ("""method void main() with exclusive io {
    let unique Ints xs = new Ints(10000);
    let int i = 0;
    while i < len xs {
        xs[i] = i * 7 % 1000;
        i = i + 1;
    }
    let int sum = 0;
    i = 0;
    while i < len xs {
        sum = sum + xs[i];
        i = i + 1;
    }
    print sum;
}
""", """def main():
    xs = [0] * 10000
    i = 0
    while i < len(xs):
        xs[i] = i * 7 % 1000
        i = i + 1
    total = 0
    i = 0
    while i < len(xs):
        total = total + xs[i]
        i = i + 1
    print(total)
main()
""", """local xs = {}
for i = 0, 9999 do xs[i] = 0 end
local i = 0
while i < 10000 do
    xs[i] = i * 7 % 1000
    i = i + 1
end
local sum = 0
i = 0
while i < 10000 do
    sum = sum + xs[i]
    i = i + 1
end
print(sum)
""")

RECORD = ("""class Record { int a; int b; int c; int d; int e; int f; int g; int h; }
method void main() with exclusive io {
    let unique Record r = new Record(1, 2, 3, 4, 5, 6, 7, 8);
    let int i = 0;
    while i < 6250 {
        r.a = r.b + 1;
        r.b = r.c + 1;
        r.c = r.d + 1;
        r.d = r.e + 1;
        r.e = r.f + 1;
        r.f = r.g + 1;
        r.g = r.h + 1;
        r.h = r.a % 1000;
        i = i + 1;
    }
    print r.a + r.h;
}
""", """class Record:
    def __init__(self, a, b, c, d, e, f, g, h):
        self.a, self.b, self.c, self.d = a, b, c, d
        self.e, self.f, self.g, self.h = e, f, g, h
def main():
    r = Record(1, 2, 3, 4, 5, 6, 7, 8)
    i = 0
    while i < 6250:
        r.a = r.b + 1
        r.b = r.c + 1
        r.c = r.d + 1
        r.d = r.e + 1
        r.e = r.f + 1
        r.f = r.g + 1
        r.g = r.h + 1
        r.h = r.a % 1000
        i = i + 1
    print(r.a + r.h)
main()
""", """local r = { a = 1, b = 2, c = 3, d = 4, e = 5, f = 6, g = 7, h = 8 }
local i = 0
while i < 6250 do
    r.a = r.b + 1
    r.b = r.c + 1
    r.c = r.d + 1
    r.d = r.e + 1
    r.e = r.f + 1
    r.f = r.g + 1
    r.g = r.h + 1
    r.h = r.a % 1000
    i = i + 1
end
print(r.a + r.h)
""")

LIST = ("""class Node<g> { int v; shared<g> Node<g> next; }
method int sum<g>(shared<g> Node<g> first) with exclusive g {
    let int total = 0;
    let shared<g> Node<g> at = first;
    while at != null {
        total = total + at.v;
        at = at.next;
    }
    return total;
}
method void main() with exclusive io {
    group g;
    let shared<g> Node<g> first = null;
    let int i = 0;
    while i < 900 {
        let unique Node<g> node = new Node<g>(i, first);
        share node into g;
        first = node;
        i = i + 1;
    }
    let int total = 0;
    i = 0;
    while i < 20 {
        let int more = sum<g>(first);
        total = total + more;
        i = i + 1;
    }
    print total;
}
""", """class Node:
    def __init__(self, v, next):
        self.v, self.next = v, next
def sum_of(first):
    total = 0
    at = first
    while at is not None:
        total = total + at.v
        at = at.next
    return total
def main():
    first = None
    i = 0
    while i < 900:
        first = Node(i, first)
        i = i + 1
    total = 0
    i = 0
    while i < 20:
        more = sum_of(first)
        total = total + more
        i = i + 1
    print(total)
main()
""", """local function sum_of(first)
    local total = 0
    local at = first
    while at ~= nil do
        total = total + at.v
        at = at.next
    end
    return total
end
local first = nil
local i = 0
while i < 900 do
    first = { v = i, next = first }
    i = i + 1
end
local total = 0
i = 0
while i < 20 do
    local more = sum_of(first)
    total = total + more
    i = i + 1
end
print(total)
""")


def locals_of(let, use, names):
    return "".join(f"    {let}x{i} = {f'x{i - 1}' if i else 'n'} + {i};{use}\n" for i in names)


# Lua has at most 200 locals in a function, so it has no such program.
LOCALS = (f"""method int many(int n) {{
{locals_of('let int ', '', NAMES)}    return x1022;
}}
method void main() with exclusive io {{
    let int i = 0;
    let int total = 0;
    while i < 50 {{
        let int more = many(i);
        total = total + more;
        i = i + 1;
    }}
    print total;
}}
""", f"""def many(n):
{locals_of('', '', NAMES)}    return x1022
def main():
    i = 0
    total = 0
    while i < 50:
        more = many(i)
        total = total + more
        i = i + 1
    print(total)
main()
""", None)

PROGRAMS = {
    "a loop of 100,000 turns": LOOP,
    "92,735 calls": CALLS,
    "an array of 10,000": ARRAY,
    "50,000 writes of fields": RECORD,
    "a list of 900 objects": LIST,
    "a block of 1,024 locals": LOCALS,
}
EMPTY = ("method void main() { }\n", "", "")


def seconds(words, text, where, mode):
    """The least time of some rounds, and what was printed."""
    least, said = None, None
    for _ in range(ROUNDS):
        with open(where, "w+") as file:
            file.write(text)
            file.flush()
            file.seek(0)
            begun = time.perf_counter()
            done = subprocess.run(words + ([where] if mode == "file" else []), stdin=file, capture_output=True, text=True)
            took = time.perf_counter() - begun
        if done.returncode:
            sys.exit(f"{words}: status {done.returncode}: {done.stderr or done.stdout}")
        least, said = took if least is None else min(least, took), done.stdout
    return least, said


def main():
    lua = next((shutil.which(name) for name in ("lua", "lua5.4", "lua5.3", "luajit") if shutil.which(name)), None)
    with tempfile.TemporaryDirectory() as folder:
        at = os.path.join(folder, "source")
        ways = [("aem", ["./aem", "run"], "stdin"), ("CPython", [sys.executable, "-S"], "file")]
        ways += [("Lua", [lua], "file")] if lua else []
        empty = {way: seconds(words, EMPTY[i], at, mode)[0] for i, (way, words, mode) in enumerate(ways)}
        for name, texts in PROGRAMS.items():
            took, said = {}, {}
            for i, (way, words, mode) in enumerate(ways):
                if texts[i] is not None:
                    time_of, said[way] = seconds(words, texts[i], at, mode)
                    took[way] = max(time_of - empty[way], 1e-6)
            if any(said["aem"] != text + "== done\n" for way, text in said.items() if way != "aem"):
                sys.exit(f"{name}: {said}")
            others = ", ".join(f"{way} {took[way]:.4f} s, ratio {took['aem'] / took[way]:.2f}" for way in took if way != "aem")
            print(f"{name}: aem {took['aem']:.4f} s, {others}")


main()
