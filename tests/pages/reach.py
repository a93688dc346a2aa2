"""Writes the tables of docs/THEOREM.md, or checks that the page is as it would write it.

    tests/pages/reach.py            checks; the last line is 'N passed, M failed'
    tests/pages/reach.py --write    writes

For each of the main contracts the page lists the definition files that it reaches, in an order in which they can be read, and the
types that it reaches of those that the code declares. A part lists what the parts before it do not. What a row says of a file is the
comment at the head of that file; of a single definition it is the comment above it. What stands above MARK is written by hand.

A definition reaches the names in its text, and a declared type the types of its fields. A name in a definition that also names a
variable counts as reached: the page can say too much for it, but not too little. Of the libraries std is not followed, csv is
followed into its definitions, and of clap and toml the page names what the crates cite.
"""

import os
import re
import shutil
import subprocess
import sys
import textwrap

# The parts: a title, and the functions by their crate and their name, with the type before that of a method; and those that are the same
# at 25 frames a second, which must reach no more.
PARTS = [
    ("The verdict, and what is written", [("judge9", "judge_for"), ("judge9", "judge_parts_for")], [("judge9", "judge")]),
    (
        "A yes with its run",
        [("judge9", "judge_with_run_for"), ("deck9", "is_run_of"), ("report9", "write_run_for")],
        [("judge9", "judge_with_run"), ("deck9", "is_run"), ("report9", "write_run")],
    ),
    ("The events of a judging", [("judge9", "Judging::new"), ("judge9", "Judging::next"), ("judge9", "Judging::knowledge")], []),
    ("The program", [("program9", "run_program"), ("program9", "End::status"), ("program9", "Message::fmt")], []),
    ("A capture, asked again with other terms", [("asking9", "answers_to")], []),
]
PAGE = "docs/THEOREM.md"
MARK = "<!-- What follows is written by tests/pages/reach.py --write. -->"
# What may stand before the name that a definition defines.
HEADS = {"abbrev", "unfoldable", "pub", "record", "data", "private"}
# Kinds of what is reached.
DEFINITION, TYPE, LIBRARY = "definition", "type", "library"
# What the functions at 25 frames a second may reach besides: the profile that they judge by.
AT_25 = (DEFINITION, "Rattle.judge9.specs.Verdict", "at_25")


def words(text):
    """The words of an antt text, without its comments and strings. A string may have a quote behind a backslash."""
    text = re.sub(r'"(?:\\.|[^"\\])*"|--.*', " ", text)
    return [word for word in re.split(r"[\s()\[\]{},;]+", text) if word]


def kit():
    """The folder of the kit, which has the definitions of the libraries."""
    if not shutil.which("rt"):
        sys.exit("FAILED no `rt` is on the path, and so no definitions of the libraries\n0 passed, 1 failed")
    page = subprocess.run(["rt", "doc"], stdout=subprocess.PIPE, text=True).stdout.strip()
    return os.path.dirname(page)


def read_lines(path):
    with open(path, encoding="utf-8") as file:
        return file.read().splitlines()


def head_of(lines):
    """The first sentence of the comment at the head of a file, without its point; of a long one what stands before a colon."""
    comment = []
    for line in lines:
        if not line.startswith("--"):
            break
        comment.append(line.strip("- "))
    sentence = re.split(r"\.(?:\s|$)", " ".join(comment))[0]
    return sentence if len(sentence) <= 130 else re.split(r"[:;]", sentence)[0]


class Uses:
    """The names that the `use` lines of a file bring: each with its module, and modules under another name."""

    def __init__(self):
        self.names, self.modules = {}, {}

    def add(self, line):
        found = re.match(r"(?:ghost )?use ([^\s{;]+?)(?:\.\{(.*)\})?(?: as (\S+?))?;?$", line.strip())
        if found is None:
            return
        path = found[1].split(".")
        if found[2] is None:
            self.modules[found[3] or path[-1]] = path
            return
        for part in found[2].split(","):
            name, _, other = part.strip().partition(" as ")
            self.names[other or name] = (path, name)


class Definitions:
    """A file of specs/: the text of each definition and the comment above it, and the data type of each constructor."""

    def __init__(self, module, path):
        self.module, self.path = module, path
        self.uses, self.texts, self.comments, self.data_of = Uses(), {}, {}, {}
        is_data, name, comment = False, None, []
        lines = read_lines(path)
        self.lines, self.head = len(lines), head_of(lines)
        for line in lines:
            if line.startswith("use "):
                self.uses.add(line)
            elif line.startswith("--"):
                comment.append(line.strip("- "))
            elif not line.strip():
                comment = []
            else:
                if not line[0].isspace():
                    name = next((word for word in words(line) if word not in HEADS), name)
                    self.comments.setdefault(name, " ".join(comment))
                    is_data = "data" in words(line)[:2]
                    comment = []
                elif is_data and re.match(r"  \w+ :", line):
                    self.data_of[line.split()[0]] = name
                self.texts[name] = self.texts.get(name, "") + "\n" + line


class Sources:
    """The definitions of all crates, and what their code declares."""

    def __init__(self, kit_folder):
        self.crates = [it for it in sorted(os.listdir("crates")) if not it.endswith("_tests")]
        self.specs, self.code, self.types, self.imported = {}, {}, {}, {}
        for crate in self.crates:
            self.read_specs(crate, f"crates/{crate}/specs")
            self.read_code(crate)
        self.followed = set(self.crates)
        self.kit = f"{kit_folder}/rattle"
        self.read_specs("csv", f"{self.kit}/csv/specs")
        self.followed.add("csv")

    def read_specs(self, crate, folder):
        for at, _, files in os.walk(folder):
            for name in files:
                if name.endswith(".antt") and name != "Lib.antt":
                    path = f"{at}/{name}"
                    module = f"Rattle.{crate}.specs." + os.path.relpath(path, folder)[: -len(".antt")].replace("/", ".")
                    self.specs[module] = Definitions(module, path)

    def read_code(self, crate):
        self.code[crate] = []
        for at, _, files in os.walk(f"crates/{crate}/src"):
            for name in sorted(it for it in files if it.endswith(".rt")):
                with open(f"{at}/{name}", encoding="utf-8") as file:
                    text = re.sub(r"//.*", "", file.read())
                self.code[crate].append((f"{at}/{name}", text))
                for found in re.finditer(r"^use (\w+)::([^;]*);", text, re.M):
                    self.imported.update({(crate, it): found[1] for it in re.findall(r"\b[A-Z]\w*", found[2])})
                declared = r"^(?:pub(?:\(crate\))? )?(struct|enum) (\w+)[^;{(]*(?:\{(.*?)^\}|\((.*?)\);)"
                for found in re.finditer(declared, text, re.S | re.M):
                    # what has a model is seen by contracts as its value, and not by its fields
                    model = re.search(rf"\bModel for {found[2]}\b", text)
                    fields = "" if model else found[3] or found[4] or ""
                    self.types[crate, found[2]] = fields_of(found[1], fields)

    def type_named(self, crate, name):
        """The declared type of this name: of this crate, of the one that it imports the name from, or of any other."""
        first = [crate, self.imported.get((crate, name))]
        return next(((TYPE, it, name) for it in [*first, *self.crates] if (it, name) in self.types), None)

    def target(self, path, name):
        """What a name of a module is, or None for what is not followed."""
        if len(path) < 4 or path[0] != "Rattle" or path[2] != "specs":
            return None
        if path[1] in ("clap", "toml") and path[3] != "declared":
            return LIBRARY, ".".join(path), name
        if path[1] not in self.followed:
            return None
        if path[-1] == "TheConstants":
            return (TYPE, path[1], name) if path[1] in self.crates else None
        if path[3] == "declared":
            ends = [path.index(it) for it in ("TheVariants", "TheViews") if it in path]
            return (TYPE, path[1], path[: min(ends, default=len(path))][-1]) if path[1] in self.crates else None
        module, outer = ".".join(path), ".".join(path[:-1])
        if module in self.specs:
            return DEFINITION, module, self.specs[module].data_of.get(name, name)
        # a constructor of a data type
        return DEFINITION, outer, path[-1]

    def named(self, text, uses, own=None):
        """What the words of a text name."""
        for word in words(text):
            head, *rest = word.split(".")
            if own is not None and head in own.texts:
                yield DEFINITION, own.module, head
            elif head in uses.names:
                yield self.target(*uses.names[head])
            elif head in uses.modules and rest and rest[0]:
                yield self.target(uses.modules[head], rest[0])

    def contract(self, crate, name):
        """The contract of a function with its signature, and of a method's `impl` the ghost lines too; the names that the file
        has until then; and the file."""
        owner, _, method = name.rpartition("::")
        for path, text in self.code[crate]:
            blocks = [(text, 0)]
            if owner:
                blocks = [(it[0], it.start()) for it in re.finditer(rf"^impl\b[^\n]*\b{owner}(?:<[^\n]*>)? \{{.*?^\}}", text, re.S | re.M)]
            for block, start in blocks:
                indent = "    " if owner else ""
                found = re.search(rf"^{indent}(?:pub |pub\(crate\) )?fn {method}\b.*?\{{$", block, re.S | re.M)
                if found:
                    uses = Uses()
                    for line in text[: start + found.start()].splitlines():
                        if line.strip().startswith("ghost use "):
                            uses.add(line)
                    ghosts = re.findall(r"^    ghost \w+ = .*$", block, re.M) if owner else []
                    return "\n".join([found[0], *ghosts]), uses, path
        sys.exit(f"no function {name} in crates/{crate}/src")

    def from_function(self, crate, name):
        """What the signature and the clauses of a function name, and its own type."""
        text, uses, _ = self.contract(crate, name)
        owner, _, _ = name.rpartition("::")
        types = re.findall(r"(?<![\w.])[A-Z]\w*", text)
        return [*self.named(text, uses), *(self.type_named(crate, it) for it in [owner, *types] if it not in uses.names)]

    def from_node(self, node):
        kind, place, name = node
        if kind == DEFINITION:
            if name not in self.specs[place].texts:
                sys.exit(f"{place} has no definition {name}")
            return self.named(self.specs[place].texts[name], self.specs[place].uses, self.specs[place])
        if kind == TYPE:
            return [self.type_named(place, it) for it in self.types.get((place, name), [])]
        return []

    def reached(self, functions):
        seen, to_do = set(), [it for function in functions for it in self.from_function(*function)]
        while to_do:
            node = to_do.pop()
            if node is not None and node not in seen:
                seen.add(node)
                to_do.extend(self.from_node(node))
        return seen


def fields_of(kind, body):
    """The names of types in the fields of a struct or an enum."""
    body = re.sub(r"#\[[^\]]*\]", "", body)
    if kind == "enum":
        body = " ".join(it[1:-1] for it in re.findall(r"\([^)]*\)|\{[^}]*\}", body))
    return re.findall(r"\b[A-Z]\w*", body)


def crates_in_order():
    """All crates and libraries, lowest first."""
    order = []
    for line in read_lines("crates.txt"):
        if not line.startswith("#"):
            crate, _, uses = line.partition(":")
            order.extend(it for it in [*uses.split(), crate] if it not in order)
    return order


def listed(words):
    """Words with commas, and with `and` before the last."""
    *first, last = words
    return f"{', '.join(first)} and {last}" if first else last


def marked(names):
    """A list of names in marks."""
    return listed([f"`{it}`" for it in names])


def in_order_of_use(sources, modules):
    """Modules of one crate, each after those that it uses, and otherwise by their names."""
    order = []

    def put(module):
        if module not in order:
            uses = sources.specs[module].uses
            used = {".".join(path) for path, _ in uses.names.values()} | {".".join(path) for path in uses.modules.values()}
            for other in sorted(used & set(modules) - {module}):
                put(other)
            order.append(module)

    for module in sorted(modules):
        put(module)
    return order


def row_of(sources, module, names):
    """The row of a file of which these definitions are reached."""
    definitions = sources.specs[module]
    path = definitions.path
    if path.startswith(sources.kit):
        crate, _, rest = path[len(sources.kit) + 1 :].partition("/")
        path = f"{crate}: {rest}"
    left_out = [it for it in definitions.texts if it not in names]
    reached = [it for it in definitions.texts if it in names]
    says = definitions.head
    comment = definitions.comments[reached[0]]
    if left_out and len(reached) == 1 and comment and not comment.startswith("the same"):
        says = f"`{reached[0]}` alone: {comment}"
    elif left_out and len(reached) <= len(left_out):
        says += f" ({marked(reached)} alone)"
    elif left_out:
        says += f" (all but {marked(left_out)})"
    return table_row(path, definitions.lines, says)


def library_row(sources, module, names):
    """The row of a file of a library that is not followed, with what of it is cited."""
    _, crate, _, *rest = module.split(".")
    path = f"specs/{'/'.join(rest)}.antt"
    lines = read_lines(f"{sources.kit}/{crate}/{path}")
    return table_row(f"{crate}: {path}", len(lines), f"{head_of(lines)} ({marked(sorted(names))}, with what is behind)")


def table_row(path, lines, says):
    says = says.replace("|", "\\|")
    return f"| `{path}` | {lines} | {says} |"


def part_of_page(sources, order, title, functions, same, before):
    """The lines of a part, and all that is reached up to it. `before` is what the parts before it reach."""
    reached = sources.reached(functions)
    more = sources.reached(same) - reached - before
    if more - {AT_25}:
        sys.exit(f"{marked(it for _, it in same)} reach more: {more}")
    reached |= more
    new = reached - before
    kinds = {kind: [it for it in new if it[0] == kind] for kind in (DEFINITION, TYPE, LIBRARY)}
    own = listed([f"`{name}` (`{sources.contract(crate, name)[2]}`)" for crate, name in functions])
    also = "also " if before else ""
    text = f"The contract of {own} {also}reaches these." if len(functions) == 1 else f"The contracts of {own} {also}reach these."
    if same:
        text += f" At 25 frames a second {marked(it for _, it in same)} reach{'es' if len(same) == 1 else ''} no others{' but `at_25`' if more else ''}."
    types = [name for _, _, name in sorted(kinds[TYPE], key=lambda it: (order.index(it[1]), it[2]))]
    text += f" Declared by the code {'are' if len(types) > 1 else 'is'} {marked(types)}."
    rows = []
    for crate in order:
        by_module = {}
        for kind, module, name in [*kinds[DEFINITION], *kinds[LIBRARY]]:
            if module.split(".")[1] == crate:
                by_module.setdefault((kind, module), set()).add(name)
        followed = in_order_of_use(sources, [module for kind, module in by_module if kind == DEFINITION])
        rows.extend(row_of(sources, module, by_module[DEFINITION, module]) for module in followed)
        cited = sorted(module for kind, module in by_module if kind == LIBRARY)
        rows.extend(library_row(sources, module, by_module[LIBRARY, module]) for module in cited)
    paragraph = textwrap.wrap(text, 125, break_on_hyphens=False)
    table = ["| File | Lines | What stands there |", "|---|---|---|", *rows]
    return ["", f"## {title}", "", *paragraph, "", *table], reached | before


def main():
    sources, order, lines, before = Sources(kit()), crates_in_order(), [MARK], set()
    for part in PARTS:
        more, before = part_of_page(sources, order, *part, before)
        lines.extend(more)
    page = read_lines(PAGE)
    written = page[: page.index(MARK)] + lines
    if sys.argv[1:] == ["--write"]:
        with open(PAGE, "w", encoding="utf-8") as file:
            file.write("\n".join(written) + "\n")
        return 0
    wrong = [it for it in lines if it not in page] + [it for it in page if it not in written]
    for line in wrong:
        print(f"FAILED {'not on the page' if line in lines else 'on the page, and should not be'}: {line}")
    if page != written:
        print("The page is mended by tests/pages/reach.py --write.")
    failed = len(wrong) or int(page != written)
    print(f"{len([it for it in lines if it in page])} passed, {failed} failed")
    return 1 if failed else 0


if __name__ == "__main__":
    sys.exit(main())
