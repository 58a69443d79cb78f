#!/usr/bin/env python3
"""allocations.py PROGRAM [WORD]: refuses each allocation of the program in turn, over commands whose line holds WORD, and all from each third one on.

PROGRAM is what `rt ci` built. It takes its memory by malloc and realloc alone; a library that is loaded before the C library counts these calls, and
refuses those that it is told to. It is compiled here by `cc`. Linux alone.

Each try has to end by status 10 with a front of the command's text, or as the command ends where memory is there. Of a rewriting each file stands
whole, in the order of the job, and behind them at most one that isn't; all other files are as they were."""
import concurrent.futures, os, shutil, subprocess, sys, tempfile

SHIM = r"""
#define _GNU_SOURCE
#include <dlfcn.h>
#include <fcntl.h>
#include <stddef.h>
#include <stdlib.h>
#include <sys/mman.h>
#include <unistd.h>
extern void *__libc_malloc(size_t), *__libc_realloc(void *, size_t);
extern void *__libc_calloc(size_t, size_t), *__libc_memalign(size_t, size_t);
static long here[4], *seen = here, alone, from;
__attribute__((constructor)) static void begin(void) {
  const char *path = getenv("SEEN"), *one = getenv("REFUSE"), *all = getenv("REFUSE_FROM");
  int file = path ? open(path, O_RDWR) : -1;
  if (one) alone = atol(one);
  if (all) from = atol(all);
  if (file >= 0) {
    void *map = mmap(0, sizeof here, PROT_READ | PROT_WRITE, MAP_SHARED, file, 0);
    if (map != MAP_FAILED) seen = map;
    close(file);
  }
}
static int refused(void) {
  long n = ++seen[0];
  int is = n == alone || (from && from <= n);
  seen[2] += is;
  return is;
}
void *malloc(size_t size) { return refused() ? NULL : __libc_malloc(size); }
void *realloc(void *old, size_t size) { return refused() ? NULL : __libc_realloc(old, size); }
void *calloc(size_t n, size_t size) { seen[1]++; return __libc_calloc(n, size); }
void *memalign(size_t a, size_t size) { seen[1]++; return __libc_memalign(a, size); }
void *aligned_alloc(size_t a, size_t size) { seen[1]++; return __libc_memalign(a, size); }
int posix_memalign(void **to, size_t a, size_t size) { seen[1]++; *to = __libc_memalign(a, size); return *to ? 0 : 12; }
"""

DATA = os.path.join(os.path.dirname(os.path.abspath(__file__)), "..", "crates", "tests_runs", "data")
MEMORY = os.path.join(DATA, "memory")
APP = "job=app.job app.policy=app.policy Main.class=app.class Main$1.class=app_inner.class"
MOVED = "job=app.job app.policy=app.policy Main.class=moved_app.class Main$1.class=moved_inner.class"

# The words of a command, and its files: `of JOB`, or a word PATH=FILE each of the folder `memory`.
COMMANDS = [
    ("", APP),
    ("policy job", "of audit.job"),
    ("check --form=inspect job", APP),
    ("check --form=pass job", APP),
    ("check --form=plain job", MOVED),
    ("run --form=inspect job", APP),
    ("run --form=pass job", APP),
    ("run --form=plain job", MOVED),
    ("rewrite job out", APP),
    ("gen 1 3", APP),
    # One refusal of each kind: a job, a policy, a class, a program that doesn't link, isn't well typed, can't be moved, has no `main`.
    ("check job", "job=without_main.job"),
    ("check job", APP.replace("=app.policy", "=unclosed.policy")),
    ("check job", "job=class_m.job m.class=bad_tag.class"),
    ("check job", "job=pair.job First.class=over_gone.class Second.class=empty.class"),
    ("check job", "job=main_class.job Main.class=pops.class"),
    ("rewrite job out", "job=main_class.job Main.class=full_locals.class"),
    ("run job", "of main_private.job"),
    # A denied privilege, kept contexts, limits, threads, exceptions, a deadlock.
    ("run --form=inspect job", "of privileged_caller.job"),
    ("run job", "of given_context.job"),
    ("run --form=inspect job", "of context_handed.job"),
    ("run job", "of limits.job"),
    ("run job", "of thread_made_privileged.job"),
    ("run --form=inspect job", "of turns.job"),
    ("run job", "of raised.job"),
    ("run job", "of joined_each_other.job"),
    ("rewrite job out", "of vault.job"),
]


def files_of(given):
    """The paths of a command's files, each with the file that it holds."""
    if not given.startswith("of "):
        return {p: os.path.join(MEMORY, f) for p, f in (w.split("=") for w in given.split())}
    job = os.path.join(DATA, given[3:])
    lines = [line.split(" ", 1) for line in open(job, encoding="utf-8").read().splitlines()]
    return {"job": job, **{v: os.path.join(DATA, v) for k, v in lines if k in ("policy", "class")}}


def held(folder):
    """All files of a folder, by their paths in it."""
    found = {}
    for at, _, names in os.walk(folder):
        for name in names:
            path = os.path.join(at, name)
            found[os.path.relpath(path, folder)] = open(path, "rb").read()
    return found


class Try:
    """What a command answers in a folder of its own, with some of its allocations refused."""

    def __init__(self, program, shim, words, files, **refused):
        with tempfile.TemporaryDirectory() as folder, tempfile.NamedTemporaryFile() as seen:
            for path, file in files.items():
                os.makedirs(os.path.dirname(os.path.join(folder, path)) or folder, exist_ok=True)
                shutil.copyfile(file, os.path.join(folder, path))
            seen.write(bytes(32))
            seen.flush()
            env = {**os.environ, "LD_PRELOAD": shim, "SEEN": seen.name, **{k: str(v) for k, v in refused.items()}}
            done = subprocess.run([program] + words, cwd=folder, env=env, stdin=subprocess.DEVNULL, capture_output=True, timeout=600)
            self.status, self.text, self.said = done.returncode, done.stdout, done.stderr
            counts = open(seen.name, "rb").read()
            self.taken, self.others, self.refused = (int.from_bytes(counts[i:i + 8], "little") for i in (0, 8, 16))
            self.files = held(folder)


def order(usual, given):
    """The paths that a command stores, in the order in which it stores them: classes by the job that is stored, which is the last."""
    new = set(usual.files) - set(given)
    if not new:
        return []
    job = usual.files["out/job"].decode()
    return [line[6:] for line in job.splitlines() if line.startswith("class ") and line[6:] in new] + ["out/job"]


def are_files_right(tried, usual, given, paths):
    """Whether a front of the files stands whole, at most one more stands beside, and all others are as they were."""
    if {p: b for p, b in tried.files.items() if p not in paths} != {p: usual.files[p] for p in given}:
        return False
    whole = 0
    while whole < len(paths) and tried.files.get(paths[whole]) == usual.files[paths[whole]]:
        whole += 1
    if tried.status == usual.status:
        return whole == len(paths)
    return not any(p in tried.files for p in paths[whole + 1:])


def is_right(tried, usual, given, paths):
    is_usual = (tried.status, tried.text) == (usual.status, usual.text)
    is_front = tried.status == 10 and usual.text.startswith(tried.text)
    return (is_usual or is_front) and are_files_right(tried, usual, given, paths)


def sweep(program, shim, words, given, pool):
    """Tries a command with each allocation refused, and with all from each third one on."""
    files = files_of(given)
    usual = Try(program, shim, words, files)
    if usual.taken == 0 or usual.others:
        sys.exit(f"{program} takes memory in another way: {usual.taken} by malloc and realloc, {usual.others} by other calls")
    paths = order(usual, files)
    cases = [("REFUSE", n) for n in range(1, usual.taken + 1)] + [("REFUSE_FROM", n) for n in range(1, usual.taken + 1, 3)]
    lacks, wrong = {"REFUSE": 0, "REFUSE_FROM": 0}, 0
    for (how, n), tried in zip(cases, pool.map(lambda c: Try(program, shim, words, files, **{c[0]: c[1]}), cases)):
        lacks[how] += tried.status == 10
        if tried.refused == 0 or not is_right(tried, usual, files, paths):
            wrong += 1
            print(f"WRONG: {how}={n}: status {tried.status}, {tried.text!r}, {tried.said!r}, {sorted(tried.files)}")
    all_of = len(cases) - usual.taken
    print(f"{' '.join(words) or '(no word)'} | {given}: status {usual.status}, {len(usual.text)} bytes, {len(paths)} files; "
          f"{usual.taken} allocations, status 10 at {lacks['REFUSE']}; from each third on {all_of}, status 10 at {lacks['REFUSE_FROM']}; "
          f"wrong {wrong}", flush=True)
    return usual.taken, lacks["REFUSE"], all_of, lacks["REFUSE_FROM"], wrong


def main():
    program, word = os.path.abspath(sys.argv[1]), sys.argv[2] if len(sys.argv) > 2 else ""
    chosen = [(w.split(), g) for w, g in COMMANDS if word in f"{w} | {g}"]
    with tempfile.TemporaryDirectory() as folder, concurrent.futures.ThreadPoolExecutor(os.cpu_count()) as pool:
        text, shim = os.path.join(folder, "refuse.c"), os.path.join(folder, "refuse.so")
        open(text, "w").write(SHIM)
        subprocess.run(["cc", "-shared", "-fPIC", "-O1", "-o", shim, text], check=True)
        all_counts = [sweep(program, shim, words, given, pool) for words, given in chosen]
    sums = [sum(c) for c in zip(*all_counts)]
    print(f"{len(chosen)} commands, {sums[0]} allocations, status 10 at {sums[1]}; "
          f"from each third on {sums[2]}, status 10 at {sums[3]}; wrong {sums[4]}")
    sys.exit(sums[4] != 0)


main()
