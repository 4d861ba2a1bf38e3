#!/usr/bin/env python3
"""Lists every public function and method of the libraries, with the clause on its result and the must-fail edits that try it.

    tools/public_calls.py        prints a table in Markdown; fails where no clause speaks of a result, or something is required

A clause speaks of a result where the function has an `ensures` of its own or that of the trait that it answers for, or, for
the library's traits, the ghost member that says what is answered (`from_gives`, `output`). That the clause fixes the result
is for the reader to see. An edit tries a function where it stands in its code, or in that of a type that answers for an
interface, or in that of a function which it calls and whose name is the only one in the crate: these are put in brackets.
"""
import pathlib
import re
import sys
from dataclasses import dataclass, field

TOP = pathlib.Path(__file__).resolve().parent.parent / "crates"
TESTS = {"trials", "file_trials"}
HEAD = re.compile(r"^( *)(pub(?:\(crate\))? )?(?:const )?fn (\w+)")
BLOCK = re.compile(r"^(?:pub )?(?:trait|impl)\b.*\{$")
GHOSTS = {"From": "from_gives", "TryFrom": "try_from_gives", "Display": "output", "Debug": "debug_output", "Default": "is_default"}


@dataclass
class Function:
    file: str
    block: str  # the line of the trait or impl that it stands in, or nothing
    around: str  # that trait's or impl's text
    name: str
    public: bool
    head: str
    body: str
    edits: list = field(default_factory=list)

    def reached(self, private):
        """Whether another crate can call it, where these types are private to the crate."""
        answering = re.search(r" for &?(\w+)", self.block)
        return self.public or self.block.startswith("pub trait") or " for " in self.block and not (answering and answering[1] in private)

    def shown(self):
        of = re.sub(r"<.*?>(?= |$)", "", self.block.removeprefix("pub ").rstrip(" {")).strip()
        return f"`{self.name}`" + (f" of `{of}`" if of else "")

    def promised(self):
        """What speaks of its result, or nothing."""
        if re.search(r"^\s*ensures", self.head, re.M):
            return "its `ensures`"
        answered = re.search(r"\b(\w+)(?:<[^ ]*>)? for ", self.block)
        if not answered:
            return ""
        ghost = GHOSTS.get(answered[1])
        if ghost:
            return f"`ghost {ghost}`" if f"ghost {ghost}" in self.around else ""
        return f"the interface `{answered[1]}`"


def extent(lines, start, indent):
    """The lines where a function's body opens and where it ends; for one without a body, its last line twice."""
    opened = None
    for at in range(start, len(lines)):
        text = lines[at].rstrip()
        if opened is None and (text == indent + "{" or text.endswith(" {") and not text.endswith("({")):
            opened = at
        if opened is None and text.endswith(";"):
            return at, at
        if text == indent + "}":
            return opened, at
    return start, start


def functions(file, crate):
    lines = file.read_text().split("#[cfg(test)]")[0].splitlines()
    block = start_of_block = ""
    for start, line in enumerate(lines):
        if BLOCK.match(line):
            block, start_of_block = line, start
        elif line == "}":
            block = ""
        head = HEAD.match(line)
        if not head:
            continue
        opened, end = extent(lines, start, head[1])
        around = "\n".join(lines[start_of_block : end + 1]) if block else ""
        yield Function(
            str(file.relative_to(crate)), block, around, head[3], head[2] == "pub ",
            "\n".join(lines[start : opened + 1]), "\n".join(lines[opened : end + 1]),
        )


def edits(crate):
    for file in sorted((crate / "must-fail").glob("*.edit")):
        path = ""
        for line in file.read_text().splitlines():
            key, _, text = line.partition(": ")
            if key == "file":
                path = text
            elif key == "old":
                yield file.stem, path, text


def tried(function, all_functions, depth=2):
    """The edits in a function's own code, and those in what it calls."""
    if depth == 0:
        return set()
    called = {g.name for g in all_functions if re.search(rf"\b{g.name}\(", function.body)}
    names = [g.name for g in all_functions]
    below = [g for g in all_functions if g.name in called and names.count(g.name) == 1 and g is not function]
    return set().union(*(set(g.edits) | tried(g, all_functions, depth - 1) for g in below), set())


def of_answers(function, all_functions):
    """Of a method that an interface only declares: the edits of those that answer for it."""
    if not function.block.startswith("pub trait"):
        return []
    interface = re.match(r"pub trait (\w+)", function.block)[1]
    answering = [g for g in all_functions if g.name == function.name and re.search(rf"\b{interface}\b.* for ", g.block)]
    return sorted({edit for g in answering for edit in g.edits})


def main():
    wrong = []
    print("| crate | public function | its result is spoken of by | must-fail edits, its own and [of what it calls] |")
    print("|---|---|---|---|")
    for line in (TOP.parent / "crates.txt").read_text().splitlines():
        name = line.split(":")[0].strip()
        crate = TOP / name
        if not name or name.startswith("#") or name in TESTS or not (crate / "src" / "lib.rt").exists():
            continue
        files = sorted((crate / "src").glob("**/*.rt"))
        private = {t for file in files for t in re.findall(r"^(?:struct|enum) (\w+)", file.read_text(), re.M)}
        known = [f for file in files for f in functions(file, crate)]
        for edit, path, old in edits(crate):
            for function in known:
                if function.file == path and old in function.head + "\n" + function.body:
                    function.edits.append(edit)
        for function in known:
            if not function.reached(private):
                continue
            promised = function.promised()
            own = function.edits or of_answers(function, known)
            below = "" if own else ", ".join(sorted(tried(function, known)))
            print(f"| {name} | {function.shown()} | {promised or 'NOTHING'} | {', '.join(own)}{f'[{below}]' if below else ''} |")
            if not promised:
                wrong.append(f"{name}: {function.shown()} promises nothing of its result")
            if re.search(r"^\s*requires", function.head, re.M):
                wrong.append(f"{name}: {function.shown()} requires something")
    for line in wrong:
        print(line, file=sys.stderr)
    sys.exit(bool(wrong))


if __name__ == "__main__":
    main()
