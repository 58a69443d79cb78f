#!/usr/bin/env python3
"""devices.py PROGRAM [WORD]: what the program answers where real files and outputs fail, for the cases whose name holds WORD.

PROGRAM is what `rt ci` built. Each case compares the status, the bytes that went out and the files that stand. Linux alone. A disk that fills needs
leave to mount one; without it this case is left out, and said to be so."""
import os, resource, shutil, signal, socket, subprocess, sys, tempfile

DATA = os.path.join(os.path.dirname(os.path.abspath(__file__)), "..", "crates", "tests_runs", "data")
MEMORY = os.path.join(DATA, "memory")
APP = {"job": "app.job", "app.policy": "app.policy", "Main.class": "app.class", "Main$1.class": "app_inner.class"}
STORED = {"out/d0/app/Main.class": "moved_app.class", "out/d0/app/Main$1.class": "moved_inner.class", "out/job": "app_out.job"}
MOST = 67_108_864
RUN, REWRITE = ["run", "job"], ["rewrite", "job", "out"]


def text_of(name):
    return open(os.path.join(MEMORY, name), "rb").read()


TEXT = open(os.path.join(DATA, "app.text"), "rb").read()
REWRITTEN = text_of("rewritten_2.text")
FILES = [(path, text_of(name)) for path, name in STORED.items()]


class Case:
    """A folder with the files of the app, in which the program is run."""

    def __init__(self, name):
        self.name, self.right = name, True

    def __enter__(self):
        self.folder = tempfile.mkdtemp()
        for path, name in APP.items():
            shutil.copyfile(os.path.join(MEMORY, name), self.at(path))
        return self

    def __exit__(self, *_):
        shutil.rmtree(self.folder)

    def at(self, path):
        return os.path.join(self.folder, path)

    def put(self, path, data):
        os.makedirs(os.path.dirname(self.at(path)), exist_ok=True)
        with open(self.at(path), "wb") as file:
            file.write(data)

    def run(self, words, out=subprocess.PIPE, limit=None, close=(), seconds=60):
        """The status and the bytes; signals that a device sends are ignored, as a shell's `trap ''` does."""

        def begin():
            signal.signal(signal.SIGXFSZ, signal.SIG_IGN)
            for number in close:
                os.close(number)
            if limit is not None:
                resource.setrlimit(resource.RLIMIT_FSIZE, (limit, limit))

        try:
            done = subprocess.run([PROGRAM] + words, cwd=self.folder, stdin=subprocess.DEVNULL, stdout=out, stderr=subprocess.DEVNULL,
                                  preexec_fn=begin, restore_signals=False, timeout=seconds)
            return done.returncode, done.stdout
        except subprocess.TimeoutExpired:
            return "no end", None

    def wants(self, got, wanted):
        if got != wanted:
            self.right = False
            print(f"WRONG: {self.name}: {got!r} in place of {wanted!r}")

    def wants_files(self, count, part=None):
        """The first ones of a rewriting's files stand whole; the next one only where it is the part that may stand."""
        for i, (path, data) in enumerate(FILES):
            is_file = os.path.isfile(self.at(path))
            if i < count:
                self.wants(is_file and open(self.at(path), "rb").read(), data)
            elif i == count and part is not None:
                self.wants(not is_file or open(self.at(path), "rb").read() == data[:part], True)
            else:
                self.wants(is_file, False)


# ---- outputs

def output_full(case):
    with open("/dev/full", "wb") as out:
        case.wants(case.run(RUN, out), (8, None))
        case.wants(case.run(REWRITE, out), (8, None))
    case.wants_files(3)


def output_closed(case):
    case.wants(case.run(RUN, close=[1]), (8, b""))
    case.wants(case.run(["policy", "job"], close=[1]), (8, b""))


def output_without_reader(case):
    reads, writes = os.pipe()
    os.close(reads)
    case.wants(case.run(RUN, writes), (8, None))
    os.close(writes)


def output_non_blocking(case):
    """A pipe that is full takes no byte; one with room takes all."""
    reads, writes = os.pipe()
    os.set_blocking(writes, False)
    case.wants(case.run(RUN, writes), (0, None))
    case.wants(os.read(reads, 65536), TEXT)
    filled = 0
    try:
        while True:
            filled += os.write(writes, bytes(4096))
    except BlockingIOError:
        pass
    case.wants(case.run(RUN, writes), (8, None))
    os.close(writes)
    with open(reads, "rb") as file:
        case.wants(file.read(), bytes(filled))


def output_to_a_socket_that_is_shut(case):
    one, other = socket.socketpair()
    one.shutdown(socket.SHUT_WR)
    case.wants(case.run(RUN, one.fileno()), (8, None))
    one.close()
    case.wants(other.recv(100), b"")
    other.close()


def output_of_limited_size(case):
    """At each byte of the text a front goes out."""
    for length in range(len(TEXT) + 1):
        with open(case.at("text"), "wb") as out:
            case.wants(case.run(RUN, out, limit=length), (0 if length == len(TEXT) else 8, None))
        case.wants(open(case.at("text"), "rb").read(), TEXT[:length])


# ---- what a rewriting stores

def files_of_limited_size(case):
    """At each size up to that of the longest file: those that come before the first longer one stand."""
    sizes = [len(data) for _, data in FILES]
    for most in range(max(sizes) + 1):
        count = next((i for i, size in enumerate(sizes) if most < size), len(sizes))
        whole = count == len(sizes)
        case.wants(case.run(REWRITE, limit=most), (0, REWRITTEN) if whole else (9, b""))
        case.wants_files(count, most)
        shutil.rmtree(case.at("out"))


def disk_that_fills(case):
    """A disk of so many pages, each of which holds a file or a folder's part."""
    os.mkdir(case.at("out"))
    seen = set()
    for pages in range(1, 8):
        made = subprocess.run(["mount", "-t", "tmpfs", "-o", f"size={4096 * pages}", "tmpfs", case.at("out")], capture_output=True)
        if made.returncode:
            print("left out: a disk that fills (no leave to mount one)")
            return
        try:
            status, text = case.run(REWRITE)
            standing = [path for path, data in FILES if os.path.isfile(case.at(path)) and open(case.at(path), "rb").read() == data]
            case.wants(standing, [path for path, _ in FILES][: len(standing)])
            case.wants((status, text), (0, REWRITTEN) if len(standing) == 3 else (9, b""))
            case.wants_files(len(standing), 0)
            seen.add(status)
        finally:
            subprocess.run(["umount", case.at("out")], check=True)
    case.wants(seen, {0, 9})


def out_is_a_file(case):
    case.put("out", b"here")
    case.wants(case.run(REWRITE), (9, b""))
    case.wants(open(case.at("out"), "rb").read(), b"here")


def out_is_a_folder(case):
    os.mkdir(case.at("out"))
    case.wants(case.run(REWRITE), (0, REWRITTEN))
    case.wants_files(3)


def its_files_are_files(case):
    for path, _ in FILES:
        case.put(path, bytes(10_000))
    case.wants(case.run(REWRITE), (0, REWRITTEN))
    case.wants_files(3)


def its_files_are_folders(case):
    for i, (path, _) in enumerate(FILES):
        os.makedirs(case.at(path))
        case.wants(case.run(REWRITE), (9, b""))
        case.wants_files(i)
        shutil.rmtree(case.at("out"))


def a_folder_of_them_is_a_file(case):
    case.put("out/d0", b"here")
    case.wants(case.run(REWRITE), (9, b""))
    case.wants(open(case.at("out/d0"), "rb").read(), b"here")


# ---- what is read

VERBS = [["policy"], ["check"], ["run"], ["run", "--form=inspect"], ["run", "--form=plain"], ["rewrite"]]
JOB = b"policy %s\nprop user.home=/home/u\ncode file:/app/\nclass %s\nclass Main$1.class\nmain app/Main\n"


def verbs(case, job, wanted, but=()):
    for verb in VERBS:
        if verb not in but:
            case.wants((verb, *case.run(verb + [job] + ["out"] * (verb == ["rewrite"]))), (verb, *wanted))
    case.wants(os.path.exists(case.at("out")), False)


def unreadable(case, path):
    """A job, a policy and a class at a path that can't be read: nothing is written. `policy` reads no class."""
    if b"\0" not in path:
        verbs(case, path.decode(), (7, b""))
    case.put("job", JOB % (path, b"Main.class"))
    verbs(case, "job", (7, b""))
    case.put("job", JOB % (b"app.policy", path))
    verbs(case, "job", (7, b""), but=[["policy"]])


def missing(case):
    unreadable(case, b"nowhere")


def a_folder(case):
    os.mkdir(case.at("folder"))
    unreadable(case, b"folder")


def below_a_file(case):
    unreadable(case, b"app.policy/file")


def a_loop_of_links(case):
    os.symlink("round", case.at("round"))
    unreadable(case, b"round")


def without_end(case):
    unreadable(case, b"/dev/zero")


def too_long(case):
    case.put("long", b"")
    os.truncate(case.at("long"), MOST + 1)
    unreadable(case, b"long")


def just_not_too_long(case):
    """A class with as many zeros behind it as may be read: they are trailing bytes."""
    data = text_of("app.class")
    case.put("Main.class", data)
    os.truncate(case.at("Main.class"), MOST)
    verbs(case, "job", (3, b"refused class Main.class at %d trailing\n" % len(data)), but=[["policy"]])


def a_path_with_a_zero_byte(case):
    unreadable(case, b"Main\0.class")


def a_long_path(case):
    unreadable(case, b"p" * 5000)


def by_fifo(case, path, words, wanted):
    """What a command answers over a FIFO that is fed once: it may not wait for a second time."""
    if os.path.lexists(case.at(path)):
        os.remove(case.at(path))
    os.mkfifo(case.at(path))
    feeder = subprocess.Popen(["sh", "-c", 'cat "$1" >"$2"', "sh", case.at("fed"), case.at(path)])
    case.wants(case.run(words, seconds=20), wanted)
    feeder.kill()
    feeder.wait()
    os.remove(case.at(path))


def a_fifo(case):
    case.put("fed", text_of("app.job"))
    for words, text in [(["policy", "p"], text_of("app_listed.text")), (["check", "p"], text_of("checked_six_methods.text")), (["run", "p"], TEXT)]:
        by_fifo(case, "p", words, (0, text))
    case.put("fed", text_of("app.class"))
    by_fifo(case, "Main.class", RUN, (0, TEXT))


def a_fifo_that_is_refused(case):
    case.put("fed", b"nonsense x\n")
    for verb in VERBS:
        by_fifo(case, "p", verb + ["p"] + ["out"] * (verb == ["rewrite"]), (3, b"refused job 1\n"))
    for verb in VERBS[1:]:
        by_fifo(case, "Main.class", verb + ["job"] + ["out"] * (verb == ["rewrite"]), (3, b"refused class Main.class at 0 magic\n"))


CASES = [output_full, output_closed, output_without_reader, output_non_blocking, output_to_a_socket_that_is_shut, output_of_limited_size,
         files_of_limited_size, disk_that_fills, out_is_a_file, out_is_a_folder, its_files_are_files, its_files_are_folders,
         a_folder_of_them_is_a_file, missing, a_folder, below_a_file, a_loop_of_links, without_end, too_long, just_not_too_long,
         a_path_with_a_zero_byte, a_long_path, a_fifo, a_fifo_that_is_refused]

PROGRAM = os.path.abspath(sys.argv[1])
right = []
for one in CASES:
    if len(sys.argv) < 3 or sys.argv[2] in one.__name__:
        with Case(one.__name__.replace("_", " ")) as it:
            one(it)
        right.append(it.right)
        if it.right:
            print(f"ok: {it.name}", flush=True)
print(f"{sum(right)} of {len(right)} cases as they say")
sys.exit(not all(right))
