#!/usr/bin/env python3
"""contexts.py PROGRAM: what `sps/Rt.enter` and `sps/Rt.snapshot` take in the form plain, in processor time, the least of nine runs, and how much
memory the process took at its peak.

Each is called in a loop of class files that are made here, and the same loop with a `pop` in the place of each call is taken away."""
import os, resource, struct, subprocess, sys, tempfile
from links import Class

CTX = "Lsps/Ctx;"
ENTER, SNAPSHOT = ("enter", "(Lsps/Ctx;I)Lsps/Ctx;"), ("snapshot", "(Lsps/Ctx;)Ljava/security/AccessControlContext;")
POP = b"\x57"


def call(c, owner, member):
    return b"\xb8" + struct.pack(">H", c.ref(10, owner, *member))


def entering(c, domains, called):
    """Enters two domains, the second with what the first gave; else the same instructions with `pop` for each call."""
    enter = call(c, "sps/Rt", ENTER) if called else POP
    first, second = (bytes([3 + d]) for d in domains)
    return b"\x2b" + first + enter + b"\x4e\x2d" + second + enter + b"\x4e"


def calling(c, domains, called):
    """Enters each of some domains from the same context."""
    enter = call(c, "sps/Rt", ENTER) if called else POP
    return b"".join(b"\x2b\x10" + bytes([d]) + enter + POP for d in domains)


def finding(c, called):
    """Enters two domains from two contexts: both are remembered in one place, so that each is looked for in the table. The second context is
    entered too, which is remembered, and isn't counted."""
    enter = call(c, "sps/Rt", ENTER)
    end = (enter if called else POP) + POP
    return b"\x2b\x04" + enter + b"\x03" + end + b"\x2b\x10\x1f" + end


def keeping(c, called):
    """Keeps the context, and leaves what that gives alone."""
    return b"\x2b" + (call(c, "sps/Rt", SNAPSHOT) if called else b"") + POP


def ints(*words):
    """Instructions on ints: a number is pushed, `+`, `-`, `*` and `/` take two, and a word of another kind stands for itself."""
    ops = {"+": b"\x60", "-": b"\x64", "*": b"\x68", "/": b"\x6c", "%": b"\x70", "i": b"\x1c"}
    return b"".join(w if isinstance(w, bytes) else ops[w] for w in words)


def alike(c, called, apart):
    """Enters four domains one behind the other from the empty context, by the number of the turn. The domains of all these contexts, times the
    powers of 1,099,511,628,211 from the last one's on, have one sum modulo 2 ^ 64; where they are to be apart, they haven't."""
    def n(value):
        return b"\x12" + bytes([c.put(("i", value), b"\x03" + struct.pack(">i", value))])
    k, j = ("i", n(256), "/"), ("i", n(256), "%")
    first = ints(*j, n(189_225), "*", n(1_600_000_000), "+")
    second = ints(*k, n(189_225), "*", *j, n(870), "*", "-", n(1_000_000_000), "+")
    third = ints(*j, *k, n(870), "*", "-", n(500_000_000), "+", *(("i", "+") if apart else ()))
    enter = call(c, "sps/Rt", ENTER) if called else POP
    return b"\x2b" + b"".join(one + enter for one in (first, second, third, ints(*k, b"\x04", "+"))) + POP


def method(c, name, desc, code, at, kind):
    """A static method with one frame, behind `at` bytes: another int behind the parameters, or none."""
    frame = (b"\xfc" + struct.pack(">H", at) + b"\x01") if kind else bytes([at])
    maps = struct.pack(">HIH", c.utf("StackMapTable"), 2 + len(frame), 1) + frame
    body = struct.pack(">HHI", 6, 4, len(code)) + code + b"\0\0\0\1" + maps
    c.methods.append(struct.pack(">HHHHHI", 9, c.utf(name), c.utf(desc), 1, c.utf("Code"), len(body)) + body)


def job(folder, times, depth, body):
    """A job of two code sources: `main` calls itself down to a depth, and there repeats what `body` writes."""
    c = Class("Main")
    begin = b"\x2b\x03" + call(c, "sps/Rt", ENTER) + b"\x4c\x03\x3d"
    turn = body(c) + b"\x84\x02\x01\x1c\x12" + bytes([c.put(("i", times), b"\x03" + struct.pack(">i", times))])
    code = begin + turn + b"\xa1" + struct.pack(">h", -len(turn)) + b"\xb1"
    method(c, "loop", "(I%s)V" % CTX, code, len(begin), True)
    down = b"\x1a\x04\x64\x2b" + call(c, "Main", ("down", "(I%s)V" % CTX)) + b"\xb1"
    code = b"\x1a\x9e" + struct.pack(">h", 3 + len(down)) + down + b"\x1a\x2b" + call(c, "Main", ("loop", "(I%s)V" % CTX)) + b"\xb1"
    method(c, "down", "(I%s)V" % CTX, code, 4 + len(down), False)
    code = b"\x11" + struct.pack(">h", depth) + b"\x2b" + call(c, "Main", ("down", "(I%s)V" % CTX)) + b"\xb1"
    c.method("main", "([Ljava/lang/String;%s)V" % CTX, code=code, stack=2, locals_=2)
    for name, one in (("Main", c), ("Other", Class("Other"))):
        with open(os.path.join(folder, name + ".class"), "wb") as out:
            out.write(one.bytes())
    with open(os.path.join(folder, "job"), "w") as out:
        out.write("depth 10000\nheap 16777216\nsteps 100000000000\ncode file:/a/\nclass Main.class\ncode file:/b/\nclass Other.class\nmain Main\n")


def taken(program, folder, runs):
    """The least processor time of some runs, in seconds, and the most memory, in kilobytes."""
    least, most = None, 0
    for _ in range(runs):
        run = subprocess.Popen([program, "run", "--form=plain", "job"], cwd=folder, stdout=subprocess.PIPE)
        said = run.stdout.read()
        _, status, used = os.wait4(run.pid, 0)
        assert status == 0 and said == b"end finished\n", (status, said)
        least = used.ru_utime if least is None else min(least, used.ru_utime)
        most = max(most, used.ru_maxrss)
    return least, most


def row(program, what, times, calls, depth, body, runs=9):
    with tempfile.TemporaryDirectory() as folder:
        job(folder, times, depth, lambda c: body(c, False))
        without, _ = taken(program, folder, runs)
        job(folder, times, depth, lambda c: body(c, True))
        whole, memory = taken(program, folder, runs)
        job(folder, 100, depth, lambda c: body(c, True))
        _, least = taken(program, folder, 1)
    print("%-42s %6.1f ns a call (%.3f s with, %.3f s without, of %d); %d KB at the peak, %d with 100 turns"
          % (what, (whole - without) * 1e9 / times / calls, whole, without, times * calls, memory, least))


if __name__ == "__main__":
    program = os.path.realpath(sys.argv[1])
    row(program, "enter within a domain", 5_000_000, 2, 0, lambda c, called: entering(c, (0, 0), called))
    row(program, "enter across two domains by turns", 5_000_000, 2, 0, lambda c, called: entering(c, (1, 0), called))
    row(program, "enter of three domains in turn", 3_000_000, 3, 0, lambda c, called: calling(c, range(1, 4), called))
    row(program, "enter of 100 domains in turn", 100_000, 100, 0, lambda c, called: calling(c, range(1, 101), called))
    row(program, "enter that is found in the table", 2_000_000, 2, 0, finding)
    for apart in (True, False):
        row(program, "enter of contexts " + ("apart" if apart else "of one sum"), 20_000, 4, 0, lambda c, called: alike(c, called, apart), 3)
    for depth in (0, 1_000):
        row(program, "snapshot at depth %d" % (depth + 3), 2_000_000, 1, depth, keeping)
