#!/usr/bin/env python3
"""links.py KIND NUMBER FOLDER: makes a job with class files whose linking or rewriting costs most in some way, for the tables of docs/MEASURES.md."""
import os, struct, sys


class Class:
    """A class file that grows: its pool, and what is written behind it."""

    def __init__(self, name, above="java/lang/Object", flags=0x21, faces=()):
        self.pool, self.known = [None], {}
        self.fields, self.methods = [], []
        self.flags = flags
        self.this, self.above = self.cls(name), self.cls(above)
        self.faces = [self.cls(f) for f in faces]

    def put(self, key, data, fresh=False):
        if not fresh and key in self.known:
            return self.known[key]
        self.pool.append(data)
        self.known[key] = len(self.pool) - 1
        return len(self.pool) - 1

    def utf(self, text):
        b = text.encode()
        return self.put(("u", b), b"\x01" + struct.pack(">H", len(b)) + b)

    def cls(self, name, fresh=False):
        return self.put(("c", name), b"\x07" + struct.pack(">H", self.utf(name)), fresh)

    def pair(self, name, desc, fresh=False):
        return self.put(("p", name, desc), b"\x0c" + struct.pack(">HH", self.utf(name), self.utf(desc)), fresh)

    def ref(self, tag, owner, name, desc, fresh=False):
        return self.put((tag, owner, name, desc), bytes([tag]) + struct.pack(">HH", self.cls(owner), self.pair(name, desc)), fresh)

    def method(self, name, desc, flags=0x9, code=b"\xb1", stack=1, locals_=2):
        body = struct.pack(">HHI", stack, locals_, len(code)) + code + b"\0\0\0\0"
        self.methods.append(struct.pack(">HHHHHI", flags, self.utf(name), self.utf(desc), 1, self.utf("Code"), len(body)) + body)

    def field(self, name, desc, flags=0x9):
        self.fields.append(struct.pack(">HHHH", flags, self.utf(name), self.utf(desc), 0))

    def init(self, code=b""):
        """A constructor without parameters; its code stands in front of the call of the one above."""
        call = b"\x2a\xb7" + struct.pack(">H", self.ref(10, "java/lang/Object", "<init>", "()V"))
        self.method("<init>", "()V", 1, code + call + b"\xb1", stack=2, locals_=1)

    def abstract(self, name, desc):
        self.methods.append(struct.pack(">HHHH", 0x401, self.utf(name), self.utf(desc), 0))

    def bytes(self):
        out = [b"\xca\xfe\xba\xbe", struct.pack(">HHH", 0, 50, len(self.pool))] + self.pool[1:]
        out.append(struct.pack(">HHHH", self.flags, self.this, self.above, len(self.faces)))
        out += [struct.pack(">H", f) for f in self.faces]
        for part in (self.fields, self.methods):
            out += [struct.pack(">H", len(part))] + part
        out.append(b"\0\0")
        return b"".join(out)


def main_class(name="Main"):
    c = Class(name)
    c.method("main", "([Ljava/lang/String;)V")
    return c


def many(n):
    """n classes of sixteen methods in chains of ten; each method calls ten of its own chain's."""
    for i in range(n):
        base = i // 10 * 10
        c = Class("C%d" % i, "C%d" % (i - 1) if i % 10 else "java/lang/Object")
        for k in range(16):
            code = b""
            for j in range(10):
                code += b"\xb8" + struct.pack(">H", c.ref(10, "C%d" % i, "m%d_%d" % (base + (k + j) % (i % 10 + 1), j + k & 15), "()V"))
            c.method("m%d_%d" % (i, k), "()V", code=code + b"\xb1")
        yield "C%d" % i, c
    yield "Main", main_class()


def least(n):
    for i in range(n - 1):
        yield "C%d" % i, Class("C%d" % i)
    yield "Main", main_class()


def chain(n):
    for i in range(n):
        yield "C%d" % i, Class("C%d" % i, "C%d" % (i - 1) if i else "java/lang/Object")
    yield "Main", main_class()


def diamonds(n):
    """I0; A and B below it; I1 below both; and so on, n times."""
    obj = "java/lang/Object"
    yield "I0", Class("I0", obj, 0x601)
    for i in range(n):
        yield "A%d" % i, Class("A%d" % i, obj, 0x601, ["I%d" % i])
        yield "B%d" % i, Class("B%d" % i, obj, 0x601, ["I%d" % i])
        yield "I%d" % (i + 1), Class("I%d" % (i + 1), obj, 0x601, ["A%d" % i, "B%d" % i])
    c = main_class()
    yield "Main", c


def methods(n):
    """One class of n methods (names by types), and one of as many references as its pool holds."""
    kinds = ["I", "J", "Z", "B", "C", "S", "[I", "[J"]
    descs = ["(%s)V" % "".join(kinds[d >> s & 7] for s in (0, 3, 6)) for d in range(256)]
    c = Class("Many")
    for i in range(n):
        c.method("m%d" % (i // 256), descs[i % 256], locals_=9)
    yield "Many", c
    d = main_class()
    i = 0
    while len(d.pool) < 65_400 and i < n:
        d.ref(10, "Many", "m%d" % (i // 256), descs[i % 256])
        i += 1
    yield "Main", d


def one_method(n):
    """One class of 65,535 methods and one of n references to the last of them, each its own entry."""
    kinds = ["I", "J", "Z", "B", "C", "S", "[I", "[J"]
    descs = ["(%s)V" % "".join(kinds[d >> s & 7] for s in (0, 3, 6)) for d in range(256)]
    c = Class("Many")
    for i in range(65_535):
        c.method("m%d" % (i // 256), descs[i % 256], locals_=9)
    yield "Many", c
    d = main_class()
    for i in range(n):
        d.ref(10, "Many", "m255", descs[254], fresh=True)
    yield "Main", d


def class_names(n):
    """n Class entries that name one text of 65,535 bytes (an array, so that it needs no class)."""
    c = main_class()
    for i in range(n):
        c.cls("[" * 255 + "I", fresh=True)
    yield "Main", c


def long_class(n):
    """The same, of a class that isn't there: refused."""
    c = main_class()
    for i in range(n):
        c.cls("L" * 65_535, fresh=True)
    yield "Main", c


def method_names(n):
    """n Methodrefs with pairs of their own that name one text of 65,535 bytes."""
    name = "m" * 65_535
    c = main_class()
    c.method(name, "()V")
    for i in range(n // 2):
        p = c.pair(name, "()V", fresh=True)
        c.put(("r", i), b"\x0a" + struct.pack(">HH", c.this, p))
    yield "Main", c


def descriptors(n):
    """The same where the descriptor is the long text: 255 parameters of a long class name each."""
    own = "x" * 65_500
    desc = "(L" + own + ";)V"
    c = main_class()
    c.method("m", desc)
    for i in range(n // 2):
        p = c.pair("m", desc, fresh=True)
        c.put(("r", i), b"\x0a" + struct.pack(">HH", c.this, p))
    yield "Main", c


def calls(n):
    """One class of n methods, of which each calls all."""
    c = Class("Many")
    for i in range(n):
        c.method("m%d" % i, "()V", code=b"".join(b"\xb8" + struct.pack(">H", c.ref(10, "Many", "m%d" % k, "()V")) for k in range(n)) + b"\xb1")
    yield "Many", c
    yield "Main", main_class()


def texts(n, there=()):
    """One class of 1,000 methods, of which each calls the next, and n texts in its pool."""
    c = Class("Many")
    for i in range(1_000):
        c.method("m%d" % i, "()V", code=b"\xb8" + struct.pack(">H", c.ref(10, "Many", "m%d" % ((i + 1) % 1_000), "()V")) + b"\xb1")
    for i in range(n):
        c.utf("text %d" % i)
    for text in there:
        c.utf(text)
    yield "Many", c
    yield "Main", main_class()


def texts_there(n):
    """The same with the texts that rewriting adds, all but the names of what it calls."""
    return texts(n, ("sps/Ctx", "sps/Rt", "enter", "(Lsps/Ctx;I)Lsps/Ctx;", "(Lsps/Ctx;)V"))


def equal_ends(n):
    """One class of n methods whose names of 72 bytes have their first and their last 32 in common, and one of a twentieth as many references."""
    names = ["a" * 32 + "%08d" % i + "b" * 32 for i in range(n)]
    c = Class("Many")
    for name in names:
        c.method(name, "()V")
    yield "Many", c
    d = main_class()
    for name in names[:: 20]:
        d.ref(10, "Many", name, "()V")
    yield "Main", d


def long_fields(n):
    """n methods of 65,520 bytes that read a field of one class and write it to one of the class above, whose names have 60,000 bytes."""
    below, above = "b" * 60_000, "a" * 60_000
    yield "A", Class(above)
    yield "B", Class(below, above)
    c = main_class()
    c.field("f", "L%s;" % below)
    c.field("g", "L%s;" % above)
    two = b"\xb2" + struct.pack(">H", c.ref(9, "Main", "f", "L%s;" % below)) + b"\xb3" + struct.pack(">H", c.ref(9, "Main", "g", "L%s;" % above))
    for i in range(n):
        c.method("m%d" % i, "()V", code=two * 10_920 + b"\xb1")
    yield "Main", c


def long_new(n):
    """n methods of 65,000 bytes that make objects of a class whose name has 65,535 bytes."""
    name = "n" * 65_535
    c = Class(name)
    c.init()
    yield "N", c
    d = main_class()
    two = b"\xbb" + struct.pack(">H", d.cls(name)) + b"\xb7" + struct.pack(">H", d.ref(10, name, "<init>", "()V"))
    for i in range(n):
        d.method("m%d" % i, "()V", code=two * 10_833 + b"\xb1")
    yield "Main", d


def long_put(n):
    """A class whose name has 65,535 bytes: n constructors of 65,000 bytes that write a field before another constructor is called."""
    name = "n" * 65_535
    c = Class(name)
    c.field("f", "I", 1)
    put = b"\x2a\x03\xb5" + struct.pack(">H", c.ref(9, name, "f", "I"))
    call = b"\x2a\xb7" + struct.pack(">H", c.ref(10, "java/lang/Object", "<init>", "()V"))
    for i in range(n):
        c.method("<init>", "(%s)V" % ("I" * i), 1, put * 13_000 + call + b"\xb1", stack=2, locals_=n + 1)
    yield "N", c
    yield "Main", main_class()


def deep_fits(n):
    """A chain of n classes, and 10,000 writes of an object of the lowest to a field of the highest."""
    for i in range(n):
        yield "C%d" % i, Class("C%d" % i, "C%d" % (i - 1) if i else "java/lang/Object")
    c = main_class()
    low = "LC%d;" % (n - 1)
    c.field("f", low)
    c.field("g", "LC0;")
    two = b"\xb2" + struct.pack(">H", c.ref(9, "Main", "f", low)) + b"\xb3" + struct.pack(">H", c.ref(9, "Main", "g", "LC0;"))
    c.method("m", "()V", code=two * 10_000 + b"\xb1")
    yield "Main", c


def overriding(n):
    """A chain of n classes with a method each, which overrides the one above."""
    for i in range(n):
        c = Class("C%d" % i, "C%d" % (i - 1) if i else "java/lang/Object")
        c.method("m", "()V", 1)
        yield "C%d" % i, c
    yield "Main", main_class()


def deep_references(n):
    """A chain of n classes, and 600 references to methods of the highest by the name of the lowest."""
    for i in range(n):
        c = Class("C%d" % i, "C%d" % (i - 1) if i else "java/lang/Object")
        for k in range(600 if i == 0 else 0):
            c.method("m%d" % k, "()V")
        yield "C%d" % i, c
    d = main_class()
    for k in range(600):
        d.ref(10, "C%d" % (n - 1), "m%d" % k, "()V")
    yield "Main", d


KINDS = dict(many=many, least=least, chain=chain, diamonds=diamonds, methods=methods, one_method=one_method, class_names=class_names,
             long_class=long_class, method_names=method_names, descriptors=descriptors, calls=calls, texts=texts, texts_there=texts_there,
             equal_ends=equal_ends, long_fields=long_fields, long_new=long_new, long_put=long_put, deep_fits=deep_fits, overriding=overriding,
             deep_references=deep_references)

if __name__ == "__main__":
    kind, number, folder = sys.argv[1], int(sys.argv[2]), sys.argv[3]
    os.makedirs(folder, exist_ok=True)
    lines, size = [], 0
    for name, c in KINDS[kind](number):
        data = c.bytes()
        assert len(c.pool) <= 65_535, len(c.pool)
        size += len(data)
        open(os.path.join(folder, name + ".class"), "wb").write(data)
        lines.append("class %s.class" % name)
    open(os.path.join(folder, "app.policy"), "w").write("grant {};\n")
    open(os.path.join(folder, "job"), "w").write("policy app.policy\ncode file:/a/\n" + "\n".join(lines) + "\nmain Main\n")
    print(kind, number, "classes", len(lines), "bytes", size)
