#!/usr/bin/env python3
"""limits.py PROGRAM [RUNS]: what privileges with limits take in the form pass, in processor time, the least of nine runs, and how much memory the process
took at its peak: a chain of eight code sources, each of which takes a privilege with limits for the next.

- `nest`: the chain again and again, with the same limits, and with limits that are made for each chain, beside limits that are made and not used.
- `differ`: the last one takes privileges with limits that are made at run time, so that its contexts of eight items all differ; the same with
  limits that are made and not used is taken away."""
import os, subprocess, sys, tempfile

SOURCES = 8
CHECK = 'PropertyPermission("n", "read")'


def chain(k, last):
    """A class of the k-th code source: it takes a privilege with the limits that are kept for it, for the next one."""
    go = last if k == SOURCES - 1 else "AccessController.doPrivileged(new K%d(), null, K0.limits);" % (k + 1)
    return "class K%d implements PrivilegedAction { public Object run() { %s return null; } }\n" % (k, go)


MADE = 'new Permission[] { new PropertyPermission(new StringBuilder("n").append(i).toString(), "read") }'


def source(kind, times):
    """The first class, which has `main`, and the rest."""
    if kind.startswith("nest"):
        made = "" if kind == "nest" else "Permission[] made = %s; " % MADE + ("limits = made; " if kind == "nest_made" else "")
        main = "for (int i = 0; i < %d; i = i + 1) { %snew K0().run(); }" % (times, made)
        last = ""
    else:
        used = "made" if kind == "differ" else "K0.limits"
        main = "new K0().run();"
        last = "Nothing to = new Nothing(); for (int i = 0; i < %d; i = i + 1) { Permission[] made = %s; AccessController.doPrivileged(to, null, %s); }" % (times, MADE, used)
    head = "import java.security.*;\nimport java.util.PropertyPermission;\n"
    classes = "".join(chain(k, last) for k in range(1, SOURCES)) + "class Nothing implements PrivilegedAction { public Object run() { return null; } }\n"
    first = "public class K0 { static Permission[] limits; Object run() { AccessController.doPrivileged(new K1(), null, limits); return null; }\n"
    first += "public static void main(String[] args) { limits = new Permission[] { new %s }; %s } }\n" % (CHECK, main)
    return head + first + classes


def job(folder, kind, times):
    for f in os.listdir(folder):
        os.remove(os.path.join(folder, f))
    with open(os.path.join(folder, "K0.java"), "w") as out:
        out.write(source(kind, times))
    subprocess.run(["javac", "-g:none", "-nowarn", "-XDstringConcat=inline", "--release", "8", "K0.java"], cwd=folder, check=True, stderr=subprocess.DEVNULL)
    with open(os.path.join(folder, "job"), "w") as out:
        out.write("depth 10000\nheap 16777216\nsteps 100000000000\n")
        for k in range(SOURCES):
            out.write("code file:/k%d/\nclass K%d.class\n" % (k, k) + ("class Nothing.class\n" if k == SOURCES - 1 else ""))
        out.write("main K0\n")


def taken(program, folder, runs):
    """The least processor time of some runs, in seconds, and the most memory, in kilobytes."""
    least, most = None, 0
    for _ in range(runs):
        run = subprocess.run(["/usr/bin/time", "-f", "%U %M", program, "run", "--form=pass", "job"], cwd=folder, capture_output=True)
        assert run.returncode == 0 and run.stdout == b"end finished\n", (run.returncode, run.stdout, run.stderr)
        seconds, memory = run.stderr.split()[-2:]
        least = float(seconds) if least is None else min(least, float(seconds))
        most = max(most, int(memory))
    return least, most


def row(program, what, kind, beside, times, each, items, runs=9):
    """Times turns of `each` privileges, which make so many items a turn."""
    with tempfile.TemporaryDirectory() as folder:
        job(folder, beside, times)
        without, least = taken(program, folder, runs)
        job(folder, kind, times)
        whole, memory = taken(program, folder, runs)
        job(folder, kind, 1)
        _, begun = taken(program, folder, 1)
    grown = memory - (least if beside != kind else begun)
    print("%-46s %8.1f ns a privilege (%.2f s, %.2f s beside it, %d of them); %d KB at the peak, %d with one turn, %d beside it, %.1f bytes an item"
          % (what, (whole - (without if beside != kind else 0)) * 1e9 / times / each, whole, without, times * each, memory, begun, least, grown * 1024 / times / items))


if __name__ == "__main__":
    program, runs = os.path.realpath(sys.argv[1]), int(sys.argv[2]) if len(sys.argv) > 2 else 9
    row(program, "limits that nest 8 deep, the same", "nest", "nest", 14_286, 7, 62, runs)
    row(program, "limits that nest 8 deep, made for each chain", "nest_made", "nest_not", 14_286, 7, 60, runs)
    row(program, "contexts of 8 items that all differ, 100,000", "differ", "differ_not", 100_000, 1, 8, runs)
    row(program, "contexts of 8 items that all differ, 200,000", "differ", "differ_not", 200_000, 1, 8, runs)
