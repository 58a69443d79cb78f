#!/usr/bin/env python3
"""reached.py: how many lines of definitions the contracts of `javasec` and `dispatch` reach, for docs/THEOREMS.md.

From the names in those contracts it follows, declaration by declaration, what each names, through all of crates/*/specs; and the Rust types
that they name. Imports, comments, attributes and blank lines aren't counted.
Of a type with a `Model` a clause sees its Value alone: its head, its public fields and what it says of its Value are counted and followed, its
private fields and the types that only these name aren't. Any other type is counted whole, with the types of all its fields, each found by
the `use` lines of its file.
`reached.py headline` counts what the two clauses on the pass form reach, `reached.py LAW` what a call of LAWS reaches. With the word `files`
behind it names the files in which that stands, of a law those that `javasec` and `dispatch` don't reach."""
import collections, glob, os, re, sys

CRATES = os.path.join(os.path.dirname(os.path.abspath(__file__)), "..", "..", "crates")
SIGNATURE = re.compile(r"^(\s*)((?:(?:abbrev|unfoldable|pub)\s+)*)(record|data)?\s*([^\s:(){}]+)\s*(?=[:({\s])")
IMPORT = re.compile(r"^(?:ghost )?use Rattle\.([^\s{;]+?)(?:\.\{(.*?)\}| as (\w+))?;?$")
TOKEN = re.compile(r"[^\s(){}\[\],;λ→×]+")
MODEL = re.compile(r"^impl(?:<[^>]*>)? Model for (\w+).*?^}", re.S | re.M)
VALUE = re.compile(r"^    ghost Value = \{.*?\};$", re.S | re.M)
RUST_USE = re.compile(r"^(?:pub )?use ([^;]+);", re.M)


def rust_names(text):
    """The names that the `use` lines of a Rust file bring in, each with its path."""
    names = {}
    for path in RUST_USE.findall(text):
        front, _, inside = re.sub(r"\s+", " ", path).partition("{")
        for name in inside.rstrip("} ").split(",") if inside else [""]:
            first, _, other = (front + name.strip()).partition(" as ")
            names[other or first.split("::")[-1]] = first.split("::")
    return names


def imports(lines):
    """The names and the aliases that a file brings in, each with the module that it comes from."""
    names, aliases = {}, {}
    for line in lines:
        found = IMPORT.match(line)
        if not found:
            continue
        module, inside, alias = found.groups()
        if inside is None:
            aliases[alias or module.split(".")[-1]] = module
            continue
        for name in inside.split(","):
            first, _, other = name.strip().partition(" as ")
            names[other or first] = (module, first)
    return names, aliases


def declarations(lines):
    """The declarations of a module of definitions: by name, the numbers of its lines."""
    found, now, indent, heads = {}, None, 0, []
    for number, line in enumerate(lines):
        words = line.strip()
        if not words or words.startswith("--") or line.startswith("use "):
            continue
        depth = len(line) - len(line.lstrip())
        if words.startswith("module _"):
            heads = [(depth, number)]
            now = None
            continue
        heads = [head for head in heads if head[0] < depth]
        begins = SIGNATURE.match(line)
        named = begins and (begins.group(2).strip() or begins.group(3))
        plain = begins and depth in (0, 2) and re.match(r"^\s*[^\s:(){}]+\s+:\s", line)
        if (named or plain) and (now is None or depth <= indent):
            now, indent = begins.group(4), depth
            found[now] = [head[1] for head in heads] + [number]
        elif now is None:
            now, indent = words.split()[0], depth
            found.setdefault(now, []).append(number)
        else:
            found[now].append(number)
    return found


class Definitions:
    def __init__(self):
        self.modules, self.types, self.models, self.uses = {}, {}, {}, {}
        for path in glob.glob(CRATES + "/*/specs/**/*.antt", recursive=True):
            crate, _, module = os.path.relpath(path, CRATES)[:-5].partition("/specs/")
            lines = open(path).read().split("\n")
            self.modules[crate + ".specs." + module.replace("/", ".")] = (lines, declarations(lines), imports(lines))
        for path in glob.glob(CRATES + "/*/src/**/*.rt", recursive=True):
            crate, _, module = os.path.relpath(path, CRATES)[:-3].partition("/src/")
            text = open(path).read()
            lines = text.split("\n")
            module = module.replace("/", ".")
            self.uses[(crate, module)] = rust_names(text)
            for model in MODEL.finditer(text):
                self.models[(crate, module, model.group(1))] = model.group(0)
            for first, line in enumerate(lines):
                named = re.match(r"^(?:pub(?:\(crate\))? )?(?:enum|struct) (\w+)", line)
                if named:
                    last = first
                    while not lines[last].startswith("}") and not lines[last].endswith((";", "}") if last == first else ";"):
                        last += 1
                    self.types[(crate, module, named.group(1))] = lines[first : last + 1]
        self.reached, self.reached_types, self.later, self.later_types = set(), set(), [], []

    def reach(self, module, name):
        parts = module.split(".")
        if "declared" in parts:
            if parts[-1] == "TheVariants":
                parts, name = parts[:-1], parts[-2]
            self.reach_type((parts[0], ".".join(parts[3:-1]), parts[-1]))
            self.reach_type((parts[0], ".".join(parts[3:]), name))
            return
        if module not in self.modules:
            return
        lines, found, _ = self.modules[module]
        if name not in found:
            member = re.compile(r"^\s*(?:pub )?(?:\w+ )*" + re.escape(name) + r"(?: \w+)* :")
            name = next((n for n, own in found.items() if any(member.match(lines[i]) for i in own)), None)
        if name and (module, name) not in self.reached:
            self.reached.add((module, name))
            self.later.append((module, name))

    def reach_text(self, text, names, aliases, module=None):
        for token in set(TOKEN.findall(text)):
            first, _, rest = token.partition(".")
            if first in names:
                self.reach(*names[first])
            elif module and first in self.modules[module][1]:
                self.reach(module, first)
            elif rest and first in aliases:
                self.reach(aliases[first], rest.split(".")[0])

    def reach_contract(self, crate, function):
        for path in glob.glob(f"{CRATES}/{crate}/src/**/*.rt", recursive=True):
            text = open(path).read()
            head = re.search(r"pub fn " + function + r"[<(].*?\n\{", text, re.S)
            if head:
                self.reach_text(head.group(0), *imports(text.split("\n")))

    def reach_type(self, key):
        if key in self.types and key not in self.reached_types:
            self.reached_types.add(key)
            self.later_types.append(key)

    def reach_rust(self, crate, module, name):
        """The type that a name stands for in a Rust file: its own, or the one that a `use` line brings, through what crates hand on."""
        if (crate, module, name) in self.types:
            return self.reach_type((crate, module, name))
        path = self.uses.get((crate, module), {}).get(name)
        if path and path[0] in ("crate", "self") and len(path) > 1:
            self.reach_rust(crate, ".".join(path[1:-1]) or "lib", path[-1])
        elif path and path[:-1] and (path[0], "lib") in self.uses:
            self.reach_rust(path[0], ".".join(path[1:-1]) or "lib", path[-1])
        elif path and path[:-1]:
            inner = [] if module == "lib" else module.split(".")
            self.reach_rust(crate, ".".join(inner + path[:-1]), path[-1])

    def shown(self, key):
        """The lines of a type that a reader reads: all, or without the private fields where it has a Model."""
        lines = [line for line in self.types[key] if line.strip() and not line.strip().startswith(("//", "#"))]
        if key not in self.models or " enum " in " " + lines[0]:
            return lines
        fields = [line for line in lines[1:] if line.strip().startswith("pub ")]
        return lines[:1] + fields + VALUE.search(self.models[key]).group(0).split("\n")

    def close(self):
        while self.later or self.later_types:
            if self.later:
                module, name = self.later.pop()
                lines, found, (names, aliases) = self.modules[module]
                self.reach_text("\n".join(re.sub(r"--.*", "", lines[i]) for i in found[name]), names, aliases, module)
                continue
            key = self.later_types.pop()
            text = "\n".join(self.shown(key))
            if key in self.models:
                uses = [line.strip().removeprefix("ghost ") for line in self.models[key].split("\n") if "ghost use" in line]
                self.reach_text(text, *imports(uses))
            for word in set(re.findall(r"\w+", text)):
                self.reach_rust(key[0], key[1], word)


def room_of(module):
    """The room of a module of definitions, or its crate, and its own name."""
    parts = module.split(".")
    return (parts[-2] if parts[-2] != "specs" else parts[0], parts[-1])


class Total:
    """What the contracts reach, counted: of `headline` the two clauses on the pass form alone."""

    def __init__(self, all):
        self.by_crate = collections.Counter()
        self.types_by_crate = collections.Counter()
        modules = {module for module, _ in all.reached}
        for module in modules:
            _, found, _ = all.modules[module]
            self.by_crate[module.split(".")[0]] += len({i for name in found if (module, name) in all.reached for i in found[name]})
        for key in all.reached_types:
            self.types_by_crate[key[0]] += len(all.shown(key))
        self.definitions = len(all.reached)
        self.lines, self.types = sum(self.by_crate.values()), sum(self.types_by_crate.values())
        # the files, each by its room (or its crate) and its own name
        self.files = {room_of(module) for module in modules}
        self.file_lines = sum(len(all.modules[module][0]) - 1 for module in modules)


LAWS = {"alike_law": "jtop", "unstuck_law": "jtop", "run_pass": "jforms"}


def total(words):
    """What `javasec` and `dispatch` reach; or the headline; or the laws that are named, each a call of LAWS."""
    all = Definitions()
    if words == ["headline"]:
        for clause in ("AnswersSome", "AnswersAll"):
            all.reach("jtop.specs.jdriver.Headline", clause)
    for function in words if words and words[0] in LAWS else []:
        all.reach_contract(LAWS[function], function)
    if not words:
        for function in ("javasec", "dispatch"):
            all.reach_contract("jtop", function)
    all.close()
    return Total(all)


def main():
    words = [word for word in sys.argv[1:] if word != "files"]
    now = total(words)
    if "files" in sys.argv[1:]:
        for room, name in sorted(now.files - (total([]).files if words else set())):
            print(f"{room}/specs/{name}")
        return
    for crate in sorted(set(now.by_crate) | set(now.types_by_crate)):
        print(f"{crate:16} {now.by_crate[crate]:6} {now.types_by_crate[crate]:6}")
    print(f"{now.definitions} definitions of {now.lines} lines; types of {now.types} lines; the whole files have {now.file_lines} lines")


if __name__ == "__main__":
    main()
