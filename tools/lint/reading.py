#!/usr/bin/env python3
"""Shows what one must believe for a promise: tools/lint/reading.py [CALL | --write].

With the name of a call it prints the definitions that the call rests on, with their comments, lowest crate first.

From the clauses of a public function it follows each name to its definition in specs/, and the names in that, and so on. It counts the
lines of those definitions, without imports, comments and blank lines. Types that the code declares are not counted, and not those of the
toolchain. What only a view leads to is counted apart: how a value of the code is seen as one of the definitions nobody has to believe
(docs/PROMISES.md). What an accepted plan is, is counted with `check`, which alone makes one. It also counts the lines of specs/ outside
specs/Private that no public function's clauses reach, and the names that have several definitions. It compares what it finds with that
page and fails if a figure there is exceeded; with --write it writes the page's table anew. A name counts where it stands, so the
figures are a little too large.

Made with rattle-kit-13f, logic dac8208d650f15bf.
"""
import glob
import os
import re
import sys

ROOT = os.path.dirname(os.path.dirname(os.path.dirname(os.path.abspath(__file__))))
PAGE = f"{ROOT}/docs/PROMISES.md"
# The promises, in the order in which one reads: the function, and the file that has it. Those before `check` are of a plan that it accepted.
PROMISES = [
    ("replay", "vc_core/src/replays.rt"),
    ("run_threads", "vc_threads/src/threads.rt"),
    ("check", "vc_plan/src/checker.rt"),
    ("read_network", "vc_reader/src/network.rt"),
    ("run_step", "vc_text/src/run.rt"),
]
# How a network, an actor, a node and a switch of the code are seen, and that they are those of a plan.
VIEWS = {
    ("vc_core/specs/State.antt", "state_of"),
    ("vc_core/specs/State.antt", "shown"),
    ("vc_core/specs/State.antt", "IsNetworkOf"),
    ("vc_actor/specs/ActorView.antt", "actor_of"),
    ("vc_actor/specs/ActorView.antt", "node_of"),
    ("vc_switch/specs/SwitchView.antt", "seen"),
    ("vc_switch/specs/State.antt", "plan_of"),
    ("vc_actor/specs/OfPlan.antt", "IsActorOf"),
}
# What `check` promises of such a plan, and what those before it need not look into.
ACCEPTED = ("vc_plan/specs/Accepted.antt", "IsAccepted")
ORDER = re.findall(r"^(\w+)(?: \w+=\S+)*:", open(f"{ROOT}/crates.txt", encoding="utf-8").read(), re.M)
HEAD = re.compile(r"^ *(?:abbrev |unfoldable )*(?:pub )?(?:record |data )?([^\s:({]+)(?=[\s:({])")
NAME = re.compile(r"[^\s(){}\[\];,:=→×λ]+")
BLOCKS = {"mutual", "module"}


class Module:
    """The definitions of one file of specs/, and what its names stand for."""

    def __init__(self, path):
        self.path = os.path.relpath(path, f"{ROOT}/crates")
        self.lines, self.names, self.comments, self.head = {}, {}, {}, []
        now, depth, comment = None, 0, []
        for line in open(path, encoding="utf-8"):
            line = line.rstrip()
            if line.startswith("use ") or line.startswith("pub use "):
                self.names.update(imports(line.removeprefix("pub ")[4:]))
                # what comes before the imports is of the whole file
                self.head, comment = self.head + comment, []
            elif line.strip().startswith("--"):
                comment.append(line)
            elif line.strip():
                indent = len(line) - len(line.lstrip())
                if indent == 0:
                    # the definitions of a block stand two columns in
                    depth = 2 if BLOCKS & set(line.split()[:2]) else 0
                head = HEAD.match(line)
                if indent == depth and head and head[1] != now:
                    now = head[1]
                    self.comments.setdefault(now, comment)
                    comment = []
                self.lines.setdefault(now, []).append(line)


def imports(text):
    """What a `use` gives to a file: its names, each with the module and the name there."""
    text = re.sub(r"\s*--.*$", "", text.rstrip(";"))
    group = re.match(r"(\S+?)\.\{(.*)\}$", text)
    if not group:
        path, _, alias = text.partition(" as ")
        return {(alias or path.rsplit(".", 1)[-1]).strip(): (path.strip(), None)}
    found = {}
    for item in group[2].split(","):
        name, _, alias = item.strip().partition(" as ")
        found[(alias or name).strip("«» ")] = (group[1], name.strip("«» "))
    return found


def modules():
    """All files of specs/, by the names by which they are imported."""
    found = {}
    for path in glob.glob(f"{ROOT}/crates/*/specs/**/*.antt", recursive=True):
        parts = os.path.relpath(path, f"{ROOT}/crates")[: -len(".antt")].split("/")
        found["Rattle." + ".".join(parts)] = Module(path)
    return found


def clauses(function, path):
    """The clauses of a function, and what their names stand for."""
    text = open(f"{ROOT}/crates/{path}", encoding="utf-8").read()
    names = {}
    for line in re.findall(r"ghost use ([^;]*);", text):
        names.update(imports(line))
    signature = re.search(rf"\n *pub fn {function}\b(.*?)\n *\{{\n", text, re.S)
    if not signature:
        raise SystemExit(f"{path}: no function {function}")
    at = re.search(r"\b(?:requires|ensures)\b", signature[1])
    return (signature[1][at.start() :] if at else ""), names


def reached(found, text, names, own, seen, views):
    """Adds to `seen` the definitions that a text's names lead to, but not into these views."""
    for token in NAME.findall(text):
        parts = token.strip(".").split(".")
        target = names.get(parts[0])
        if target and target[1] is None and len(parts) > 1:
            target = (target[0], parts[1])
        if own and parts[0] in own.lines:
            target = (None, parts[0])
        if not target or target[1] is None:
            continue
        module = own if target[0] is None else found.get(target[0])
        # a `pub use` hands a name on
        while module and target[1] not in module.lines and module.names.get(target[1], (None, None))[1]:
            target = module.names[target[1]]
            module = found.get(target[0])
        if not module or target[1] not in module.lines or (module.path, target[1]) in seen or (module.path, target[1]) in views:
            continue
        seen[module.path, target[1]] = len(module.lines[target[1]])
        reached(found, "\n".join(module.lines[target[1]]), module.names, module, seen, views)


class Row:
    """A promise: the definitions that it reaches, those that only views lead to, and what the promises before it reach."""

    def __init__(self, function, path, found, before, unread):
        text, names = clauses(function, path)
        self.function, self.before = function, before
        self.believed, reached_in_all = {}, {}
        reached(found, text, names, None, self.believed, VIEWS | unread)
        reached(found, text, names, None, reached_in_all, unread)
        self.seen_by = {k: n for k, n in reached_in_all.items() if k not in self.believed}
        self.together = {**before, **self.believed}
        self.lines, self.views = sum(self.believed.values()), sum(self.seen_by.values())
        self.files = len({path for path, _ in self.believed})


def stray(found):
    """How many lines of definitions outside specs/Private no clause of a public function leads to."""
    seen = {}
    for path in glob.glob(f"{ROOT}/crates/*/src/*.rt"):
        text = open(path, encoding="utf-8").read()
        names = {}
        for line in re.findall(r"ghost use ([^;]*);", text):
            names.update(imports(line))
        for signature in re.findall(r"\n *pub (?:const )?fn \w+\b(.*?)\n *\{[\n}]", text, re.S):
            at = re.search(r"\b(?:requires|ensures)\b", signature)
            reached(found, signature[at.start() :] if at else "", names, None, seen, set())
        for ghost in re.findall(r"\n *ghost \w+ = \{(.*?)\};\n", text, re.S):
            reached(found, ghost, names, None, seen, set())
    public = [it for it in found.values() if "/Private" not in it.path and not it.path.endswith("/Lib.antt")]
    # an operator is used without its name
    return sum(len(lines) for it in public for name, lines in it.lines.items() if name and "◌" not in name and (it.path, name) not in seen)


def table(found):
    """Each promise, behind what the promises before it reach."""
    rows, before, unread = [], {}, {ACCEPTED}
    for function, path in PROMISES:
        unread = set() if function == "check" else unread
        rows.append(Row(function, path, found, before, unread))
        before = rows[-1].together
    return rows


def by_file(lines):
    files = {}
    for (path, _), count in lines.items():
        files[path] = files.get(path, 0) + count
    return sorted(files.items(), key=lambda it: (ORDER.index(it[0].split("/")[0]), it[0]))


def several(rows):
    """How many names the promises rest on, and how many of them have several definitions."""
    names = [name for _, name in rows[-1].before | rows[-1].believed]
    return len(set(names)), len({name for name in names if names.count(name) > 1})


def page(rows, left):
    names, many = several(rows)
    out = ["| Call | Lines to believe | Files | Lines with those above | Lines of views |", "|---|---|---|---|---|"]
    out += [f"| `{it.function}` | {it.lines} | {it.files} | {sum(it.together.values())} | {it.views} |" for it in rows]
    out += ["", f"Lines of specs/ outside specs/Private that no public promise needs: {left}."]
    out += [f"Names with several definitions: {many}, of the {names} that the promises rest on."]
    return "\n".join(out) + "\n"


def read_aloud(row, found):
    """The definitions that a call rests on, with their comments, file by file."""
    by_path = {it.path: it for it in found.values()}
    for path, count in by_file(row.believed):
        module = by_path[path]
        print(f"\n== {path}: {count} lines", *module.head, sep="\n")
        for name, lines in module.lines.items():
            if (path, name) in row.believed:
                print("", *module.comments.get(name, []), *lines, sep="\n")


def main():
    found = modules()
    rows, left = table(found), stray(found)
    asked = [it for it in rows if it.function in sys.argv[1:]]
    if asked:
        return read_aloud(asked[0], found)
    mark, end = "<!-- made by tools/lint/reading.py --write -->\n", "<!-- end -->\n"
    front, _, rest = open(PAGE, encoding="utf-8").read().partition(mark)
    old, _, after = rest.partition(end)
    if "--write" in sys.argv:
        with open(PAGE, "w", encoding="utf-8") as it:
            it.write(front + mark + "\n" + page(rows, left) + "\n" + end + after)
        return 0
    told = {m[1]: int(m[2]) for m in re.finditer(r"^\| `(\w+)` \| (\d+) \|", old, re.M)}
    wrong = [f"{it.function}: {it.lines} lines, and the page says {told.get(it.function)}" for it in rows if it.lines > told.get(it.function, 0)]
    limit = re.search(r"^Lines of specs/ outside .*: (\d+)\.$", old, re.M)
    if left > int(limit[1] if limit else 0):
        wrong.append(f"{left} lines of specs/ outside specs/Private that no public promise needs")
    many = re.search(r"^Names with several definitions: (\d+),", old, re.M)
    if several(rows)[1] > int(many[1] if many else 0):
        wrong.append(f"{several(rows)[1]} names have several definitions")
    print("\n".join([*wrong, *(f"{it.function}: {it.lines} lines in {it.files} files, and {it.views} of views" for it in rows)]))
    return 1 if wrong else 0


if __name__ == "__main__":
    sys.exit(main())
