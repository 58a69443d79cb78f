#!/usr/bin/env python3
"""edges.py KIND NUMBER FOLDER: makes a job that goes as far as class files go in one way, for `check`, `rewrite` and `run` in each form: `catches` (NUMBER methods
that each catch all around all that they do, of which 256 are called), `slots` (a method that may have NUMBER stack slots, and calls where it has nearly as many),
`slots_deep` (the same number, in a method that calls itself 5,000 deep), `raising` (NUMBER handlers over one call that raises 1,000 times, which the last one
catches), `raising_deep` (the same once, where what is thrown stands below 1,000 classes)."""
import os, struct, sys
from links import Class

MAIN = "([Ljava/lang/String;)V"
KINDS_OF = ["I", "J", "Z", "B", "C", "S", "[I", "[J"]
DESCS = ["(%s)V" % "".join(KINDS_OF[d >> s & 7] for s in (0, 3, 6)) for d in range(256)]


def two(n):
    return struct.pack(">H", n)


def thrown(c):
    """What a handler finds on its stack, as a frame says it."""
    return b"\7" + two(c.cls("java/lang/Throwable"))


def method(c, name, desc, code, frames=(), handlers=(), stack=2, locals_=2):
    """A static method with frames and handlers."""
    table = two(len(frames)) + b"".join(frames)
    maps = two(c.utf("StackMapTable")) + struct.pack(">I", len(table)) + table
    body = struct.pack(">HHI", stack, locals_, len(code)) + code
    body += two(len(handlers)) + b"".join(struct.pack(">HHHH", *h) for h in handlers) + (b"\0\1" + maps if frames else b"\0\0")
    assert len(code) < 65_536, len(code)
    c.methods.append(struct.pack(">HHHHHI", 9, c.utf(name), c.utf(desc), 1, c.utf("Code"), len(body)) + body)


def call(c, owner, name, desc):
    return b"\xb8" + two(c.ref(10, owner, name, desc))


def one_item(delta, item):
    """A frame of the same locals with one item on its stack (JVMS 4.7.4)."""
    return b"\xf7" + two(delta) + item


def same(delta):
    return b"\xfb" + two(delta)


def catches(n):
    """main, and n - 1 methods that throw null, which their handler catches; it covers itself too."""
    c = Class("Main")
    for i in range(n - 1):
        method(c, "m%d" % (i // 256), DESCS[i % 256], b"\1\xbf\x57\xb1", [one_item(2, thrown(c))], [(0, 4, 2, 0)], locals_=6)
    names = ["m%d" % (i // 256) for i in range(0, n - 1, 256)]
    method(c, "main", MAIN, b"".join(b"\3\3\3" + call(c, "Main", name, DESCS[0]) for name in names) + b"\xb1", stack=3)
    yield c


def slots(n, longs=32_740):
    """A method of n stack slots, of which it fills nearly all, and then calls another."""
    c = Class("Main")
    c.method("empty", "()V")
    fill = min(longs, n // 2)
    method(c, "fills", "()V", b"\x09" * fill + call(c, "Main", "empty", "()V") + b"\xb1", stack=n)
    c.method("main", MAIN, code=call(c, "Main", "fills", "()V") + b"\xb1")
    yield c


def slots_deep(n):
    c = Class("Main")
    down = b"\x1a\x04\x64" + call(c, "Main", "down", "(I)V") + b"\xb1"
    method(c, "down", "(I)V", b"\x1a\x9e" + two(3 + len(down)) + down + b"\xb1", [same(4 + len(down))], stack=n)
    c.method("main", MAIN, code=b"\x11" + two(5_000) + call(c, "Main", "down", "(I)V") + b"\xb1")
    yield c


def raised(c, n, times, throws):
    """main calls a method that throws so many times, under n handlers, of which the last catches it."""
    method(c, "throws", "()V", throws, stack=2)
    body = call(c, "Main", "throws", "()V")
    head = b"\3\x3c"  # an int in local 1 counts
    turn = b"\x57\x84\1\1\x1b\x12" + bytes([c.put(("i", times), b"\3" + struct.pack(">i", times))])
    at = len(head) + len(body)
    code = head + body + b"\xb1" + turn
    back = len(head) - len(code)
    code += b"\xa1" + struct.pack(">h", back) + b"\xb1"
    frames = [b"\xfc" + two(len(head)) + b"\1", one_item(at + 1 - len(head) - 1, thrown(c))]
    handlers = [(len(head), at, at + 1, c.cls("Other", fresh=True)) for _ in range(n - 1)] + [(len(head), at, at + 1, 0)]
    method(c, "main", MAIN, code, frames, handlers, stack=2, locals_=2)
    yield c
    yield Class("Other", "java/lang/RuntimeException")


def raising(n):
    return raised(Class("Main"), n, 1_000, b"\1\xbf")


def raising_deep(n):
    above = "java/lang/RuntimeException"
    for i in range(1_000):
        c = Class("E%d" % i, above)
        c.method("<init>", "()V", 1, b"\x2a\xb7" + two(c.ref(10, above, "<init>", "()V")) + b"\xb1", stack=1, locals_=1)
        above = "E%d" % i
        yield c
    c = Class("Main")
    new = b"\xbb" + two(c.cls(above)) + b"\x59\xb7" + two(c.ref(10, above, "<init>", "()V")) + b"\xbf"
    yield from raised(c, n, 1, new)


KINDS = dict(catches=catches, slots=slots, slots_deep=slots_deep, raising=raising, raising_deep=raising_deep)

if __name__ == "__main__":
    kind, number, folder = sys.argv[1], int(sys.argv[2]), sys.argv[3]
    os.makedirs(folder, exist_ok=True)
    lines, size = [], 0
    for i, c in enumerate(KINDS[kind](number)):
        data = c.bytes()
        assert len(c.pool) <= 65_535, len(c.pool)
        size += len(data)
        with open(os.path.join(folder, "C%d.class" % i), "wb") as out:
            out.write(data)
        lines.append("class C%d.class" % i)
    with open(os.path.join(folder, "job"), "w") as out:
        out.write("depth 10000\nheap 16777216\nsteps 1000000000\ncode file:/a/\n" + "\n".join(lines) + "\nmain Main\n")
    print(kind, number, "classes", len(lines), "bytes", size)
