#!/usr/bin/env python3
"""checks.py KIND NUMBER FOLDER: makes a job with a class whose checking costs most in some way, for the tables of docs/MEASURES.md: `handlers` (NUMBER handlers
over ten times as many stores of what the local has), `handlers_by_turns` (the stores are of an int and null by turns), `frames` (NUMBER frames over 65,535 locals, a
store before each), `switch` (one of NUMBER cases to one frame of 65,535 locals), `switch_by_turns` (to two by turns)."""
import os, struct, sys
from links import Class

MOST = 65_535


def frame(delta, locals_, stack):
    """A full frame (JVMS 4.7.4)."""
    return b"\xff" + struct.pack(">HH", delta, len(locals_)) + b"".join(locals_) + struct.pack(">H", len(stack)) + b"".join(stack)


def method(c, code, frames, handlers=(), stack=2, locals_=MOST):
    """The method `main` with frames and handlers."""
    table = struct.pack(">H", len(frames)) + b"".join(frames)
    maps = struct.pack(">HI", c.utf("StackMapTable"), len(table)) + table
    body = struct.pack(">HHI", stack, locals_, len(code)) + code
    body += struct.pack(">H", len(handlers)) + b"".join(struct.pack(">HHHH", *h) for h in handlers) + struct.pack(">H", 1) + maps
    assert len(code) < 65_536, len(code)
    c.methods.append(struct.pack(">HHHHHI", 9, c.utf("main"), c.utf("([Ljava/lang/String;)V"), 1, c.utf("Code"), len(body)) + body)
    return c


TOP, INT = b"\0", b"\1"
STORE, NULL = b"\x03\x3b", b"\x01\x4b"  # iconst_0 istore_0; aconst_null astore_0


def covered(n, stores):
    """Stores to local 0 under n handlers, each of which covers all of them; then a return, and the handlers' pop and return."""
    c = Class("Main")
    end = len(stores)
    thrown = b"\7" + struct.pack(">H", c.cls("java/lang/Throwable"))
    return method(c, stores + b"\xb1\x57\xb1", [frame(end + 1, [], [thrown])], [(0, end, end + 1, 0)] * n, locals_=2)


def handlers(n):
    return covered(n, STORE * (10 * n))


def handlers_by_turns(n):
    return covered(n, (STORE + NULL) * (5 * n))


def frames(n):
    """An int in local 0, 65,534 unused locals, then n frames of the same locals, each behind a store of an int to local 0."""
    first = frame(2, [INT] + [TOP] * (MOST - 1), [])
    return method(Class("Main"), STORE * (n + 1) + b"\xb1", [first] + [b"\1"] * n)


def cases(n, targets):
    """An int in local 0, then a tableswitch of n cases to the targets by turns: a return each, with frames of 65,535 locals."""
    head = STORE + b"\x03"
    pad = b"\0" * (-(len(head) + 1) % 4)
    at = len(head)
    ends = at + 1 + len(pad) + 12 + 4 * n
    leads = [ends + i % targets - at for i in range(n)]
    code = head + b"\xaa" + pad + struct.pack(">iii", leads[0], 0, n - 1) + b"".join(struct.pack(">i", x) for x in leads) + b"\xb1" * targets
    fs = [frame(ends, [INT] + [TOP] * (MOST - 1), [])] + [frame(0, [TOP] * MOST, [])] * (targets - 1)
    return method(Class("Main"), code, fs)


def switch(n):
    return cases(n, 1)


def switch_by_turns(n):
    return cases(n, 2)


KINDS = dict(handlers=handlers, handlers_by_turns=handlers_by_turns, frames=frames, switch=switch, switch_by_turns=switch_by_turns)

if __name__ == "__main__":
    kind, number, folder = sys.argv[1], int(sys.argv[2]), sys.argv[3]
    os.makedirs(folder, exist_ok=True)
    data = KINDS[kind](number).bytes()
    open(os.path.join(folder, "Main.class"), "wb").write(data)
    open(os.path.join(folder, "app.policy"), "w").write("grant {};\n")
    open(os.path.join(folder, "job"), "w").write("policy app.policy\ncode file:/a/\nclass Main.class\nmain Main\n")
    print(kind, number, "bytes", len(data))
