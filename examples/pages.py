#!/usr/bin/env python3
"""pages.py: tests what pages say of this tree: docs/*.md, README.md, examples/README.md. `python3 examples/pages.py`, from anywhere.

- Each path is there: one that begins with crates/, docs/, examples/ or .ci/, and `ROOM/specs/MODULE` with the names in brackets behind it.
- Each word that looks like a crate or a room is one; `CRATE::ROOM` too. `NAME` of ROOM stands in that room. A name with a capital stands
  somewhere in the crates, but for the guide's.
- Each clause that a row of THEOREMS names stands in the contract of each call of the row; a row without a name speaks of a call that has one
  clause. The clauses of `javasec` are all in its table. What is quoted stands in the tree, letter for letter.
- Counts of crates, of definitions and of their lines are what the tree has; the files to be read are those that `reached.py` reaches.
- MAP has one row for each crate, which names each room once, storeys in which each crate stands on its own and lower ones, and who
  stands on the kit's crates.
- The rows of WRONG_BODIES that name a file have a crate with that file, in which the text stands.
- No page says who may name a room.

It prints what is wrong and ends with status 1, or prints a line of counts. `pages.py long [PAGE..]` prints the sentences of more than 30 words
instead, and `pages.py heads` what heads of crates say of what they stand on that isn't so."""
import collections, functools, glob, os, re, sys

ROOT = os.path.normpath(os.path.join(os.path.dirname(os.path.abspath(__file__)), ".."))
sys.path.insert(0, os.path.join(ROOT, "examples", "measures"))
sys.dont_write_bytecode = True
import reached

PAGES = ["README.md", "examples/README.md"] + sorted(glob.glob("docs/*.md", root_dir=ROOT))
MAP, THEOREMS, WRONG_BODIES = "docs/MAP.md", "docs/THEOREMS.md", "docs/WRONG_BODIES.md"
# it names what stands in Java's library alone
GUIDE = "docs/GUIDE.md"
# words that look like rooms and are none
WORDS = set("jar java javac javap javasec javax jcmd jdeps jmod job jobs join joined joining joins".split())
WORDS |= set("judge judged judges jump jumped jumps just jvms jsr jsr_w".split())
WHO = re.compile(r"\b(?:who may name|may name (?:it|them)|nobody (?:may )?names?|(?:is|are) named by `?j\w+`? alone)\b")
wrong, counts = [], collections.Counter()


def say(page, number, what):
    wrong.append(f"{page}:{number}: {what}")


# ---- the tree


@functools.cache
def read(path):
    with open(os.path.join(ROOT, path), encoding="utf-8") as file:
        return file.read()


@functools.cache
def find(pattern):
    """The files of a pattern, as paths from the top, without what was built."""
    return [path for path in sorted(glob.glob(pattern, root_dir=ROOT, recursive=True)) if "/out/" not in path]


def is_there(path):
    return bool(glob.glob(os.path.join(ROOT, path)))


def rooms_of(crate):
    """The rooms of a crate of several: the public modules behind a head that speaks of rooms; none where the crate is a room by itself."""
    path = f"crates/{crate}/src/lib.rt"
    text = read(path) if is_there(path) else ""
    return re.findall(r"^pub mod (\w+);", text, re.M) if " as rooms:" in text.replace("\n//! ", " ") else []


def stands_on():
    lines = [line.split("#")[0].strip() for line in read("crates.txt").split("\n")]
    return {line.split(":")[0]: line.split(":")[1].split() for line in lines if ":" in line}


ON = stands_on()
CRATES = sorted(path.split("/")[1] for path in glob.glob("crates/*/src", root_dir=ROOT))
ROOMS = {room: crate for crate in CRATES for room in rooms_of(crate)}


@functools.cache
def sources(room):
    """The files of code, of definitions and of proofs of a crate or of a room."""
    crate, _, inner = room.partition("::")
    crate, inner = (ROOMS[room], room) if room in ROOMS else (crate, inner)
    found = find(f"crates/{crate}/*/**/*.rt") + find(f"crates/{crate}/*/**/*.antt")
    proofs = "".join(part.capitalize() for part in inner.split("_")) + "Proofs"
    return [path for path in found if not inner or re.match(rf"crates/{crate}/[^/]+/({inner}|{proofs})[/.]", path)]


@functools.cache
def text_of(room):
    return "\n".join(path + "\n" + read(path) for path in sources(room))


@functools.cache
def functions():
    return {name for path in find("crates/*/src/**/*.rt") for name in re.findall(r"\bfn (j\w+)", read(path))}


@functools.cache
def words():
    """All words of the crates, and those of their files' names."""
    paths = find("crates/**/*.rt") + find("crates/**/*.antt")
    return {word for path in paths for word in re.findall(r"\w+", path + " " + read(path))}


def stands_in(name, text):
    return re.search(rf"(?<!\w){name}(?!\w)", text) is not None


# ---- pages


def lines_of(page):
    return enumerate(read(page).split("\n"), 1)


def outside_blocks(page):
    """The lines of a page that aren't quoted, with their numbers."""
    fenced = False
    for number, line in lines_of(page):
        if line.startswith("```"):
            fenced = not fenced
        elif not fenced and not line.startswith("    "):
            yield number, line


def tables(page):
    """The rows of a page's tables, each with the head of its table and its number."""
    head = None
    for number, line in lines_of(page):
        cells = tuple(cell.strip() for cell in re.split(r"(?<!\\)\|", line)[1:-1])
        if not cells:
            head = None
        elif head is None:
            head = cells
        elif not re.fullmatch("-+", cells[0]):
            yield head, number, cells


# ---- paths and names


def test_paths(page):
    here = os.path.dirname(page)
    for number, line in lines_of(page):
        paths = re.findall(r"\]\(([^)#:]+)(?:#[^)]*)?\)", line)
        if page == "examples/README.md":
            paths += re.findall(r"`([\w/]+\.(?:sh|py))\b", line)
        paths = [os.path.join(here, path) for path in paths]
        for path in re.findall(r"(?<![\w/.$~])((?:crates|docs|examples|\.ci)/[\w./*\-]+)", line):
            # CRATE, ROOM and their like stand for a name
            if path.endswith(".md") or not (re.search(r"\b[A-Z]{3,}\b", path) or "/out/" in path or ".." in path):
                paths.append(path.rstrip(".,"))
        for path in paths:
            counts["paths"] += 1
            if not is_there(path) and not is_there(path + ".antt"):
                say(page, number, f"no path {path}")
        test_modules(page, number, line)


def test_modules(page, number, line):
    for span in re.finditer(r"`(j\w+)/specs/((?:\w+/)*\w+)(?:\.antt)?`(?:, `\w+`)*(?: \((`[^)]*`)\))?", line):
        room, module, names = span.groups()
        path = f"crates/{ROOMS[room]}/specs/{room}/{module}.antt" if room in ROOMS else f"crates/{room}/specs/{module}.antt"
        counts["paths"] += 1
        if not is_there(path):
            say(page, number, f"no module {room}/specs/{module}")
            continue
        for name in re.findall(r"`(\w+)`", names or ""):
            counts["names"] += 1
            if not stands_in(name, re.sub(r"(?m)^use .*|--.*", "", read(path))):
                say(page, number, f"no {name} in {room}/specs/{module}")


def test_names(page):
    for number, line in outside_blocks(page):
        for word in re.findall(r"(?<![\w/.$:\-])(j[a-z_]*[a-z])(?![\w(]|\.\w|/\w|-\w)", line):
            if word not in CRATES and word not in ROOMS:
                if word not in WORDS and word not in functions():
                    say(page, number, f"no crate or room {word}")
                continue
            counts["rooms"] += 1
            for name in re.findall(rf"(?<![\w/.]){word}::(\w+)", line):
                if not stands_in(name, text_of(word)):
                    say(page, number, f"no {word}::{name}")
        for name, room in re.findall(r"`([\w:]+)`(?: of| in) `?(j\w+(?:::\w+)?)`?", line):
            if room.split("::")[0] in CRATES or room in ROOMS:
                counts["names"] += 1
                if not stands_in(name.split("::")[-1], text_of("jdriver" if room == "javasec" else room)):
                    say(page, number, f"no {name} in {room}")
        for name in re.findall(r"`([A-Z][a-z]\w+)`", line) if page != GUIDE else []:
            counts["names"] += 1
            if name not in words():
                say(page, number, f"no {name} in the tree")
        if WHO.search(line):
            say(page, number, "says who may name a room")


# ---- clauses


@functools.cache
def contracts(room, call):
    """The names of the clauses of the public functions of a name in a room, a list each; "" is a clause without a name."""
    owner, _, name = call.rpartition("::")
    found = []
    for path in sources(room):
        for head in re.finditer(rf"^( *)pub fn {name}\b.*?^\1\{{", read(path), re.S | re.M) if path.endswith(".rt") else []:
            if not owner or re.search(rf"^impl(?:<[^>]*>)? (?:\w+ for )?{owner}\b", read(path)[: head.start()], re.M):
                found.append(re.findall(r"^\s*ensures(?: (\w+))? \{", head.group(0), re.M))
    return found


def test_clauses():
    top, said = contracts("jdriver", "javasec")[0], set()
    for head, number, cells in tables(THEOREMS):
        if head == ("clause", "in plain words"):
            for name in re.findall(r"`(\w+)`", cells[0]):
                said.add(name)
                counts["clauses"] += 1
                if name not in top:
                    say(THEOREMS, number, f"javasec has no clause {name}")
        elif head[1:] == ("public call", "clause", "crate"):
            test_row(number, cells)
    for name in top:
        if name not in said:
            say(THEOREMS, 0, f"no row for the clause {name} of javasec")
    for head, number, cells in tables("README.md"):
        if head == ("promise", "clause"):
            for names, call in re.findall(r"((?:`\w+`(?:, )?)+) of `(\w+)`", cells[1]):
                test_call("README.md", number, call, CRATES, re.findall(r"`(\w+)`", names))


def test_row(number, cells):
    rooms = re.findall(r"[\w:]+", cells[3])
    for call in re.findall(r"`([\w:]+)`", cells[1]):
        test_call(THEOREMS, number, call, rooms, re.findall(r"`(\w+)`", cells[2]) or [""])
    for room in rooms:
        if room.split("::")[0] not in CRATES and room not in ROOMS:
            say(THEOREMS, number, f"no crate or room {room}")


def test_call(page, number, call, rooms, names):
    found = [clauses for room in rooms for clauses in contracts(room, call)]
    if not found:
        say(page, number, f"no public call {call} in {', '.join(rooms)}")
        return
    for name in names:
        counts["clauses"] += 1
        if not any(name in clauses if name else clauses == [""] for clauses in found):
            say(page, number, f"{call} has no clause {name}" if name else f"{call} has clauses with names, and the row names none")


def test_quotes():
    """Each line that THEOREMS quotes stands in a definition or in a contract."""
    files = find("crates/j*/src/**/*.rt") + find("crates/j*/specs/**/*.antt")
    lines = {" ".join(line.split()) for path in files for line in read(path).split("\n")}
    for number, line in lines_of(THEOREMS):
        if line.startswith("    "):
            counts["quotes"] += 1
            if " ".join(line.split()) not in lines:
                say(THEOREMS, number, f"not in the tree: {line.strip()[:80]}")


# ---- counts, and the files to be read


@functools.cache
def total(*words):
    return reached.total(list(words))


def test_counts():
    whole, headline = total(), total("headline")
    known = {
        r"([\d,]+) crates\b": [len(CRATES)],
        r"([\d,]+) definitions\b": [whole.definitions, headline.definitions],
        r"definitions of ([\d,]+) lines": [whole.lines, headline.lines],
        r"types (?:of|in|have) ([\d,]+) lines": [whole.types, headline.types],
        r"whole files have ([\d,]+) lines": [whole.file_lines],
    }
    for page in ("README.md", MAP, THEOREMS):
        for number, line in outside_blocks(page):
            for pattern, values in known.items():
                for found in re.findall(pattern, line):
                    counts["counts"] += 1
                    if int(found.replace(",", "")) not in values:
                        say(page, number, f"{found} is {' or '.join(map(str, values))} in this tree ({pattern})")


def test_files():
    """The tables of files in THEOREMS name the modules that the contracts reach, and no others; those of a law only what is further."""
    said = collections.defaultdict(dict)
    for head, number, cells in tables(THEOREMS):
        if head[-1] == "room: files":
            law = cells[1].strip("`") if len(cells) == 3 else ""
            for part in cells[-1].split("; "):
                room, names = part.split(": ", 1)
                said[law].update({(room.split("::")[-1], name): number for name in re.findall(r"\w+", names)})
    for law in ["", *reached.LAWS]:
        files = total(law).files - total().files if law else total().files
        for room, name in sorted(said[law].keys() - files):
            say(THEOREMS, said[law][room, name], f"{law or 'the top call'} reaches nothing of {room}/specs/{name}")
        for room, name in sorted(files - said[law].keys()):
            say(THEOREMS, 0, f"{law or 'the top call'} reaches {room}/specs/{name}, which the table doesn't name")
        counts["files"] += len(said[law])
    test_order(list(dict.fromkeys(room for room, _ in said[""])))


def test_order(rooms):
    """From the row of the base on each file to be read imports files of its own room and of rooms before it."""
    for module, (_, _, (names, aliases)) in reached.Definitions().modules.items():
        here = reached.room_of(module)
        for other in [where for where, _ in names.values()] + list(aliases.values()):
            there = reached.room_of(other) if other.split(".")[0] in CRATES and "declared" not in other else here
            if here in total().files and there in total().files and here[0] in rooms and there[0] in rooms:
                if rooms.index("jbase") <= rooms.index(here[0]) < rooms.index(there[0]):
                    say(THEOREMS, 0, f"{'/specs/'.join(here)} imports of {there[0]}, which is further down in the table")


# ---- the map


def test_map():
    said, kit = collections.Counter(), set()
    for head, number, cells in tables(MAP):
        if head == ("crate", "for") and not cells[0].startswith("**"):
            crate = cells[0]
            said[crate] += 1
            for name in re.findall(r"(?:: |; )`([\w:]+)` ", cells[1]):
                room = name.split("::")
                said[room[-1]] += 1
                if ROOMS.get(room[-1]) != crate or (len(room) > 1) != crate.endswith("_laws"):
                    say(MAP, number, f"no room {name} of {crate}")
        elif head == ("crate", "for", "stands below"):
            for name in re.findall(r"`(\w+)`", cells[0]):
                kit.add(name)
                above = [other for other in ON if name in ON[other]]
                if sorted(re.findall(r"\w+", cells[2])) != sorted(above):
                    say(MAP, number, f"{name} stands below {', '.join(above)}")
    for name in CRATES + list(ROOMS):
        counts["rows"] += said[name]
        if said[name] != 1:
            say(MAP, 0, f"{said[name]} rows for {name}")
    for name in sorted({other for crate in ON for other in ON[crate]} - set(CRATES) - kit):
        say(MAP, 0, f"no row for {name} of the kit")


def test_storeys():
    """A crate stands on crates of its own storey and of those below it."""
    storeys = [[]]
    for head, number, cells in tables(MAP):
        if head == ("crate", "for") and cells[0].startswith("**"):
            storeys.append([])
        elif head == ("crate", "for") and cells[0]:
            storeys[-1].append((cells[0], number))
    known = set()
    for storey in storeys:
        known |= {name for name, _ in storey}
        for name, number in storey:
            for other in set(ON.get(name, [])) & set(CRATES) - known:
                say(MAP, number, f"{name} stands on {other}, which is on a storey above")


# ---- wrong bodies, long sentences


def test_bodies():
    for number, line in lines_of(WRONG_BODIES):
        row = [cell.strip().removesuffix(" |") for cell in line.split(" | ")]
        found = re.fullmatch(r"\| `(\w+)/\w+`", row[0])
        if not found:
            continue
        counts["bodies"] += 1
        path = f"crates/{found.group(1)}/{row[1].strip('`')}"
        old = row[3].removeprefix("`").removesuffix("`").replace("\\|", "|") if len(row) == 5 else ""
        if found.group(1) not in CRATES:
            say(WRONG_BODIES, number, f"no crate {found.group(1)}")
        elif len(row) == 5 and not is_there(path):
            say(WRONG_BODIES, number, f"no path {path}")
        elif len(row) == 5 and old not in read(path):
            say(WRONG_BODIES, number, f"not in {path}: {old.strip()[:60]}")


def long_sentences(page):
    for number, line in outside_blocks(page):
        for cell in re.split(r"\s\|\s|^\| | \|$", line):
            for sentence in re.split(r"(?<=[.!?])[*)]*\s+", cell):
                length = len([word for word in sentence.split() if re.search(r"\w", word)])
                if length > 30:
                    print(f"{page}:{number}: {length} words: {sentence[:100]}")


def test_heads():
    """What the heads of crates say that they stand on stands in `crates.txt`."""
    for crate in CRATES:
        path = f"crates/{crate}/src/lib.rt"
        head = re.match(r"(?://![^\n]*\n)*", read(path)).group(0).replace("\n//!", "") if is_there(path) else ""
        for sentence in re.findall(r"[Ii]t stands on ([^.:;]*)", head):
            named = [word for word in re.findall(r"\bj\w+", sentence) if word in CRATES or word in ROOMS]
            for name in named:
                if ROOMS.get(name, name) not in ON[crate] + [crate]:
                    say(path, 0, f"stands on no {name}: {' '.join(ON[crate])}")
            if "alone" in sentence and set(named) != set(ON[crate]) & set(CRATES):
                say(path, 0, f"stands on more: {' '.join(ON[crate])}")


def main():
    if sys.argv[1:2] == ["long"]:
        for page in sys.argv[2:] or PAGES:
            long_sentences(page)
        return 0
    if sys.argv[1:2] == ["heads"]:
        test_heads()
        print("\n".join(wrong))
        return 1 if wrong else 0
    for page in PAGES:
        test_paths(page)
        test_names(page)
    for test in (test_clauses, test_quotes, test_counts, test_files, test_map, test_storeys, test_bodies):
        test()
    print("\n".join(wrong) or f"{len(PAGES)} pages: " + ", ".join(f"{n} {what}" for what, n in sorted(counts.items())))
    return 1 if wrong else 0


if __name__ == "__main__":
    sys.exit(main())
