#!/usr/bin/env python3
"""Plants bugs in the code of every crate, one at a time, and tells which of them the check lets through.

    tools/plant_bugs.py                          bugs in all crates, 240 of them
    tools/plant_bugs.py scan sweeps --bugs 60    bugs in these crates alone
    tools/plant_bugs.py --list                   only what would be planted; nothing is checked
    tools/plant_bugs.py --tables FILE            prints the tables of results that an earlier run wrote

It works on a copy of the repository for each worker, in a temporary folder, with what `rt check` kept in out/: run `rt check` in each
crate first, lowest first. The places are found in src/ and drawn by a fixed seed; clauses, ghost items, types, signatures, attributes,
imports, strings and tests are left alone. A bug is judged by the check of its own crate, and in a program, whose few contracts say little,
then by a run of the program, whose output must be that of the crate's file stdout. A bug that is no code (it does not parse, or has wrong
types) is not counted, and the next that was drawn takes its place. What each bug came to is written, as tab-separated text, as soon as it
is known; a run that is given the same file again goes on where it stopped.
"""
import argparse
import collections
import concurrent.futures
import dataclasses
import os
import pathlib
import random
import re
import shutil
import signal
import subprocess
import sys
import tempfile
import threading

TOP = pathlib.Path(__file__).resolve().parent.parent
TESTS = {"trials", "file_trials"}
RUN_SECONDS = 120

# What a bug can come to.
REFUSED, OUTPUT, UNFIT, UNJUDGED, PROVED, NO_CODE = "refused", "other output", "proof file unfit", "not judged", "still proved", "not code"

# ---- The text of a source file as tokens.

TOKEN = re.compile(
    r"""(?P<space>\s+|//[^\n]*|/\*.*?\*/)
    |(?P<string>b?"(?:\\.|[^"\\])*")
    |(?P<char>b?'(?:\\[^']+|[^'\\])')
    |(?P<life>'\w+)
    |(?P<number>[0-9][0-9_]*(?:[iu](?:8|16|32|64|128|size))?)
    |(?P<word>\w+)
    |(?P<mark>\.\.=|\.\.|<=|>=|==|!=|&&|\|\||->|=>|::|\+=|-=|\*=|/=|%=|.)""",
    re.X | re.S,
)
OPENING = {"(": ")", "[": "]", "{": "}"}
KEYWORDS = set("as break const continue else enum fn for if impl in let loop match mod move mut pub return struct trait type use where while".split())
CLAUSES = {"requires", "ensures"}


@dataclasses.dataclass
class Token:
    kind: str
    text: str
    start: int
    end: int


class Source:
    """A source file: its text, its tokens, and the partner of each bracket."""

    def __init__(self, path):
        self.path = path
        self.text = path.read_text(encoding="utf-8")
        self.tokens = [Token(it.lastgroup, it[0], it.start(), it.end()) for it in TOKEN.finditer(self.text) if it.lastgroup != "space"]
        self.partner = {}
        opened = []
        for at, token in enumerate(self.tokens):
            if token.text in OPENING:
                opened.append(at)
            elif token.text in OPENING.values() and token.kind == "mark":
                other = opened.pop()
                self.partner[other], self.partner[at] = at, other

    def word(self, at):
        return self.tokens[at].text if 0 <= at < len(self.tokens) else ""

    def span(self, first, last):
        """The text from one token to another, which is included."""
        return self.text[self.tokens[first].start : self.tokens[last].end]

    def find(self, at, *wanted):
        """The first token from `at` on, outside of brackets, that is one of those wanted."""
        while at < len(self.tokens) and self.word(at) not in wanted:
            at = self.partner.get(at, at) + 1 if self.word(at) in OPENING else at + 1
        return at

    def pieces(self, opening):
        """What stands between the commas in a pair of brackets: the first and the last token of each."""
        at, closing, found = opening + 1, self.partner[opening], []
        while at < closing:
            comma = min(self.find(at, ","), closing)
            found.append((at, comma - 1))
            at = comma + 1
        return found


# ---- What a source file declares: the code in which bugs are planted, and the types by which they are chosen.


@dataclasses.dataclass
class Body:
    """The body of a function, between its braces, or the value of a constant."""

    source: Source
    first: int
    last: int
    function: "Function | None" = None


@dataclasses.dataclass
class Function:
    name: str
    group: str
    kinds: dict
    parameters: list
    result: str


class Declared:
    """All that the source files declare."""

    def __init__(self):
        self.bodies = []
        self.functions = []
        self.structs = {}
        self.enums = {}

    def read(self, source):
        self.items(source, 0, len(source.tokens), "")

    def items(self, source, at, end, group):
        """Reads the items from one token to another; `group` is the head of the impl or trait that they stand in."""
        while at < end:
            word = source.word(at)
            if word == "#":
                at = source.partner[at + 1 if source.word(at + 1) == "[" else at + 2] + 1
                if source.span(at - 5, at - 1) == "cfg(test)]":
                    at = self.past_item(source, source.find(at, "mod"))
            elif word in ("use", "ghost", "type"):
                at = source.find(at, ";") + 1
            elif word in ("struct", "enum"):
                at = self.type(source, at)
            elif word in ("mod", "impl", "trait"):
                at = self.nest(source, at)
            elif word == "const" and source.word(at + 1) != "fn":
                at = self.constant(source, at)
            elif word == "fn":
                at = self.function(source, at, group)
            else:
                at += 1

    def past_item(self, source, at):
        stop = source.find(at, "{", ";")
        return source.partner.get(stop, stop) + 1

    def nest(self, source, at):
        stop = source.find(at, "{", ";")
        if source.word(stop) == "{":
            self.items(source, stop + 1, source.partner[stop], source.span(at, stop - 1))
        return self.past_item(source, at)

    def constant(self, source, at):
        stop = source.find(at, ";")
        equals = source.find(at, "=", ";")
        if equals < stop:
            self.bodies.append(Body(source, equals + 1, stop - 1))
        return stop + 1

    def type(self, source, at):
        """A struct, with the type of each field, or an enum, with the names of the fields of each case."""
        word, name, stop = source.word(at), source.word(at + 1), source.find(at, "{", ";")
        if source.word(stop) == ";":
            return stop + 1
        if word == "struct":
            self.structs[name] = fields_of(source, stop)
        else:
            self.enums[name] = {}
            for first, last in source.pieces(stop):
                first = past_attributes(source, first)
                opening = source.find(first, "{", "(")
                has_fields = opening <= last and source.word(opening) == "{"
                shape = str(fields_of(source, opening)) if has_fields else source.span(first, last).removeprefix(source.word(first))
                self.enums[name][source.word(first)] = shape
        return source.partner[stop] + 1

    def function(self, source, at, group):
        opening = source.find(at, "(")
        kinds = bounds_in(source.span(at, opening))
        parameters = [parameter_of(source, first, last) for first, last in source.pieces(opening)]
        after = source.partner[opening] + 1
        result = "()"
        if source.word(after) == "->":
            stop = source.find(after, "{", ";", "where", *CLAUSES)
            result = source.span(after + 1, stop - 1)
            after = stop
        after = past_clauses(source, source.find(after, "{", ";", *CLAUSES))
        function = Function(source.word(at + 1), group, kinds, parameters, result)
        self.functions.append(function)
        if source.word(after) == "{":
            self.bodies.append(Body(source, after + 1, source.partner[after] - 1, function))
            return source.partner[after] + 1
        return after + 1


def past_attributes(source, at):
    while source.word(at) == "#":
        at = source.partner[at + 1] + 1
    return at


def past_clauses(source, at):
    while source.word(at) in CLAUSES:
        at = source.partner[source.find(at, "{")] + 1
    return at


def fields_of(source, opening):
    """The fields between braces, each with its type, but for ghost fields."""
    fields = {}
    for first, last in source.pieces(opening):
        colon = source.find(past_attributes(source, first), ":")
        if colon < last and "ghost" not in source.span(first, colon):
            fields[source.word(colon - 1)] = source.span(colon + 1, last)
    return fields


def bounds_in(head):
    """The bound of each type parameter that the head of a function names."""
    return dict(re.findall(r"(\b[A-Z]\w*): ([\w ]+)", head))


def parameter_of(source, first, last):
    colon = source.find(first, ":")
    return (source.word(colon - 1), source.span(colon + 1, last)) if colon < last else ("self", source.span(first, last))


def with_bounds(text, kinds):
    """A type in which each type parameter is put as its bound, so that `&X` and `&Y` are of one kind where both are axes."""
    return re.sub(r"\b\w+\b", lambda word: kinds.get(word[0], word[0]), text)


# ---- The kinds of bug. Each gives, for a body, what to put in place of which text: (kind, start, end, new text).

COMPARED = {"<": ("<=", ">"), "<=": ("<", ">="), ">": (">=", "<"), ">=": (">", "<="), "==": ("!=",), "!=": ("==",)}
BINDING = [("*", "/", "%"), ("+", "-"), ("&",), ("|",), ("==", "!=", "<", ">", "<=", ">="), ("&&",), ("||",), ("..", "..=")]
STOPS = {",", ";", "{", "}", "=", "=>", "+=", "-=", ":", "return", "if", "match", "in", "let", "else", "while"}
LEVEL = {text: level for level, group in enumerate(BINDING) for text in group}


class Planter:
    """The bugs that can be planted in one body."""

    def __init__(self, declared, body):
        self.declared, self.body, self.source = declared, body, body.source
        self.code = list(code_in(body))

    def bugs(self):
        yield from self.loop_bound()
        yield from self.constant()
        yield from self.comparison()
        yield from self.exchange()
        yield from self.dropped()
        yield from self.early_return()
        yield from self.field()
        yield from self.sign()
        yield from self.condition()
        yield from self.case()

    # What stands at a token.

    def is_spaced(self, at):
        token = self.source.tokens[at]
        return self.source.text[token.start - 1].isspace() and self.source.text[token.end].isspace()

    def is_operand(self, at):
        token = self.source.tokens[at]
        return token.kind in ("number", "string") or token.kind == "word" and token.text not in KEYWORDS or token.text in (")", "]", "?")

    def is_binary(self, at):
        return self.is_spaced(at) and self.is_operand(at - 1)

    def left_of(self, at):
        """The first token of the left operand of the operator at a token, or none."""
        level, first = LEVEL[self.source.word(at)], at
        while first - 1 >= self.body.first:
            before = first - 1
            word = self.source.word(before)
            if word in (")", "]", "}") and before in self.source.partner and (word != "}" or first != at):
                first = self.source.partner[before]
                continue
            if word in STOPS or word in OPENING or word in ("..", "..=") or word == "|" and not self.is_binary(before):
                break
            if word in LEVEL and self.is_binary(before) and LEVEL[word] > level:
                break
            first = before
        return first if first < at else None

    def right_of(self, at):
        """The last token of the right operand of the operator at a token, or none."""
        level, last = LEVEL[self.source.word(at)], at
        while last + 1 <= self.body.last:
            after = last + 1
            word = self.source.word(after)
            if word in ("(", "["):
                last = self.source.partner[after]
                continue
            if word in STOPS or word in (")", "]", "..", "..="):
                break
            if word in LEVEL and last > at and self.is_binary(after) and LEVEL[word] >= level:
                break
            last = after
        return last if last > at else None

    def change(self, kind, first, last, new):
        return kind, self.source.tokens[first].start, self.source.tokens[last].end, new

    def by_word(self, kind, words, test):
        """A change for each token whose text is one of the words, to each of the texts that go with it."""
        for at in self.code:
            for new in words.get(self.source.word(at), ()):
                if test(at):
                    yield self.change(kind, at, at, new)

    # The kinds.

    def comparison(self):
        yield from self.by_word("comparison flipped", COMPARED, self.is_binary)

    def constant(self):
        for at in self.code:
            token = self.source.tokens[at]
            if token.kind == "number" and self.source.word(at - 1) != ".":
                for new in beside(token.text):
                    yield self.change("constant off by one", at, at, new)

    def exchange(self):
        kind = "operands exchanged"
        is_method = lambda at: self.source.word(at - 1) == "." and self.source.word(at + 1) == "("
        yield from self.by_word(kind, {"min": ("max",), "max": ("min",)}, is_method)
        for at in self.code:
            if self.source.word(at) in ("-", "/", "%") and self.is_binary(at):
                first, last = self.left_of(at), self.right_of(at)
                left = self.source.span(first, at - 1)
                left = f"({left})" if re.search(r" [-+*/%] ", left) else left
                yield self.change(kind, first, last, f"{self.source.span(at + 1, last)} {self.source.word(at)} {left}")
            elif self.source.tokens[at].kind == "word" and self.source.word(at + 1) == "(":
                yield from self.exchanged_arguments(at)

    def exchanged_arguments(self, at):
        """The arguments of a call whose parameters are of one kind, two by two."""
        pieces, seen = self.source.pieces(at + 1), set()
        for function in self.declared.functions:
            parameters = function.parameters
            if parameters and parameters[0][0] == "self" and self.source.word(at - 1) == ".":
                parameters = parameters[1:]
            if function.name != self.source.word(at) or len(parameters) != len(pieces):
                continue
            kinds = [with_bounds(kind, function.kinds) for _, kind in parameters]
            seen |= {(one, other) for other in range(len(kinds)) for one in range(other) if kinds[one] == kinds[other]}
        for one, other in sorted(seen):
            a, b = pieces[one], pieces[other]
            between = self.source.text[self.source.tokens[a[1]].end : self.source.tokens[b[0]].start]
            if self.source.span(*a) != self.source.span(*b):
                yield self.change("operands exchanged", a[0], b[1], self.source.span(*b) + between + self.source.span(*a))

    def dropped(self):
        for first, last in self.statements():
            head = self.source.word(first)
            if head not in KEYWORDS | CLAUSES | {"ghost"}:
                # Under `if false` it is never run, and what proof files name stays.
                yield self.change("write dropped", first, last, f"if false {{ {self.source.span(first, last)} }}")
                equals = self.source.find(first, "=", ";")
                if equals < last:
                    yield self.change("write dropped", first, equals, "let _ =")

    def statements(self):
        """Each statement that ends with a semicolon, by its first and last token."""
        code = set(self.code)
        for at in self.code:
            starts = at == self.body.first or self.source.word(at - 1) in (";", "{", "}")
            if starts and (self.source.tokens[at].kind == "word" or self.source.word(at) == "*"):
                stop = self.source.find(at, ";", "}", ",", "=>")
                if self.source.word(stop) == ";" and stop in code and self.is_block(at):
                    yield at, stop

    def is_block(self, at):
        """Whether the brackets around a token are those of a block or of the body, and not of an array such as `[0; 3]` or of a macro."""
        before = range(at - 1, self.body.first - 1, -1)
        around = next((it for it in before if self.source.word(it) in OPENING and self.source.partner[it] > at), None)
        return around is None or self.source.word(around) == "{"

    def loop_bound(self):
        kind = "loop bound off by one"
        for at in self.code:
            word = self.source.word(at)
            if word not in ("..", "..=") or self.source.word(at - 1) in (",", "{") or self.source.word(at + 1) == "}":
                continue
            first, last = self.left_of(at), self.right_of(at)
            for one, other in [(first, at - 1)] * (first is not None) + [(at + 1, last)] * (last is not None):
                for new in moved(self.source.span(one, other)):
                    yield self.change(kind, one, other, new)
            if first is not None and last is not None:
                yield self.change(kind, at, at, ".." if word == "..=" else "..=")

    def early_return(self):
        function = self.body.function
        for answer in answers_of(function) if function else ():
            start = self.source.tokens[self.body.first - 1].end
            # Under `if true` the rest of the function is never run, and what proof files name stays.
            yield "early return", start, start, f" if true {{ return{answer and ' '}{answer}; }}"

    def field(self):
        kind = "wrong field"
        for at in self.code:
            name = self.source.word(at)
            if self.source.word(at - 1) == "." and self.source.tokens[at].kind == "word":
                others = self.methods_like(name) if self.source.word(at + 1) == "(" else self.fields_like(name)
                for other in others:
                    yield self.change(kind, at, at, other)
            elif name == "{":
                yield from self.values_of_others(at)

    def fields_like(self, name):
        found = [other for fields in self.declared.structs.values() if name in fields for other in fields if fields[other] == fields[name]]
        return sorted(set(found) - {name})

    def methods_like(self, name):
        """The methods that stand beside one of this name, and take and give the same."""
        shape = lambda it: (it.group, it.result, [kind for _, kind in it.parameters])
        shapes = [shape(it) for it in self.declared.functions if it.name == name and it.parameters and it.parameters[0][0] == "self"]
        return sorted({it.name for it in self.declared.functions if shape(it) in shapes} - {name})

    def values_of_others(self, opening):
        """In a struct that is written out, a field with the value of another one of the same type."""
        pieces = self.source.pieces(opening)
        name = self.source.word(opening - 1)
        fields = self.declared.structs.get(self.body_type() if name == "Self" else name)
        if not fields or self.source.word(self.source.partner[opening] + 1) in ("=", "=>", "|"):
            return
        values = {self.source.word(first): (first, last) for first, last in pieces if self.source.word(first) in fields}
        for one, (first, last) in values.items():
            for other, (start, end) in values.items():
                value = self.source.span(start + 2 if end > start else start, end)
                own = self.source.span(first + 2 if last > first else first, last)
                if value != own and fields[one] == fields[other] and "\n" not in value:
                    yield self.change("wrong field", first, last, f"{one}: {value}")

    def body_type(self):
        function = self.body.function
        return re.findall(r"\w+", function.group.split(" for ")[-1])[-1] if function and function.group else ""

    def sign(self):
        kind = "sign dropped or turned"
        yield from self.by_word(kind, {"+": ("-",), "-": ("+",), "+=": ("-=",), "-=": ("+=",)}, self.is_binary)
        yield from self.by_word(kind, {"-": ("",)}, lambda at: not self.is_operand(at - 1) and not self.is_spaced(at))

    def condition(self):
        kind = "condition negated"
        words = {"&&": ("||",), "||": ("&&",), "&": ("|",), "|": ("&",)}
        yield from self.by_word(kind, words, self.is_binary)
        yield from self.by_word(kind, {"true": ("false",), "false": ("true",)}, lambda at: True)
        yield from self.by_word(kind, {"!": ("",)}, lambda at: not self.is_operand(at - 1))
        for at in self.code:
            if self.source.word(at) in ("if", "while") and self.source.word(at + 1) not in ("let", "!"):
                last = self.source.find(at + 1, "{", "=>") - 1
                yield self.change(kind, at + 1, last, f"!({self.source.span(at + 1, last)})")
            elif self.source.word(at) == "." and self.source.word(at + 1) in ("find", "filter", "any", "all") and self.source.word(at + 3) == "|":
                first, last = self.source.find(at + 4, "|") + 1, self.source.partner[at + 2] - 1
                if self.source.word(first) not in CLAUSES:
                    yield self.change(kind, first, last, f"!({self.source.span(first, last)})")

    def case(self):
        """A case of an enum for another one that holds the same."""
        for at in self.code:
            cases = self.declared.enums.get(self.source.word(at - 2), {}) if self.source.word(at - 1) == "::" else {}
            shape = cases.get(self.source.word(at))
            for other in cases if shape is not None else ():
                if other != self.source.word(at) and cases[other] == shape:
                    yield self.change("wrong case", at, at, other)


def code_in(body):
    """The tokens of a body but for clauses, ghost items, attributes, imports and types."""
    source, at = body.source, body.first
    while at <= body.last:
        word = source.word(at)
        if word in CLAUSES:
            at = past_clauses(source, at)
        elif word == "#" and source.word(at + 1) == "[":
            at = past_attributes(source, at)
        elif word in ("ghost", "use", "prove"):
            at = source.find(at, ";") + 1
        elif word == ":" and source.word(source.find(at, "=", ";", ",", "|")) == "=" and is_annotation(source, at):
            at = source.find(at, "=")
        else:
            yield at
            at += 1


def is_annotation(source, at):
    """Whether the colon at a token is that of `let name: TYPE =`."""
    return source.word(at - 2) in ("let", "mut")


def beside(text):
    """The whole numbers one above and one below, written as the number was."""
    digits = re.match(r"[0-9_]+", text)[0]
    value, suffix = int(digits.replace("_", "")), text[len(digits) :]
    return [f"{value + 1}{suffix}"] + [f"{value - 1}{suffix}"] * (value > 0)


def moved(text):
    """A bound one higher, and one lower, with no sum that would wrap."""
    if re.fullmatch(r"[0-9_]+(?:[iu]\w+)?", text):
        return beside(text)
    text = text if re.fullmatch(r"[\w.]+(?:\(\))?", text) else f"({text})"
    return [f"{text}.saturating_add(1)", f"{text}.saturating_sub(1)"]


def answers_of(function):
    """What a function could answer at once, by the type of its result."""
    result = function.result
    inner = re.fullmatch(r"(?:io::)?Result<(\w+|\(\))(?:, .*)?>", result)
    simple = {"()": [""], "bool": ["false", "true"], "fmt::Result": ["Ok(())"]}
    number = r"[iu](?:8|16|32|64|128|size)"
    if result in simple:
        return simple[result]
    if re.fullmatch(number, result):
        return ["0"]
    if inner and (inner[1] == "()" or re.fullmatch(number, inner[1])):
        return ["Ok(())" if inner[1] == "()" else "Ok(0)"]
    if result.startswith("Option<"):
        return ["None"]
    own = {"Self", last_word(function.group)}
    alike = [name for name, kind in function.parameters if kind == result or kind == "self" and result in own]
    return alike + ["V::ZERO"] * (function.kinds.get(result) == "Value")


def last_word(group):
    return re.findall(r"\w+", group)[-1] if group else ""


# ---- The bugs of each crate.


@dataclasses.dataclass(frozen=True)
class Bug:
    crate: str
    path: str
    line: int
    column: int
    kind: str
    start: int
    end: int
    old: str
    new: str

    def key(self):
        return self.crate, self.path, str(self.line), str(self.column), self.kind, short(self.old), short(self.new)


def short(text):
    return " ".join(text.split())


def crates_of(top):
    """The crates that crates.txt lists, each with those that it depends on."""
    lines = [line.split("#")[0].split(":") for line in (top / "crates.txt").read_text().splitlines()]
    return {line[0].split()[0]: line[1].split() for line in lines if len(line) == 2}


def is_program(top, crate):
    return (top / "crates" / crate / "src/main.rt").exists()


def places_of(top, crates):
    """The places of each crate, each with the bugs of one kind that can be planted there."""
    below, found = crates_of(top), {}
    for crate in crates:
        declared, before = Declared(), 0
        for name in [*below[crate], crate]:
            before = len(declared.bodies)
            for path in sorted((top / "crates" / name / "src").rglob("*.rt")):
                declared.read(Source(path))
        found[crate] = places_in(declared, declared.bodies[before:], crate, top)
    return found


def places_in(declared, bodies, crate, top):
    places, seen = collections.defaultdict(list), set()
    for body in bodies:
        for kind, start, end, new in Planter(declared, body).bugs():
            text, path = body.source.text, str(body.source.path.relative_to(top))
            if (path, start, end, new) not in seen:
                seen.add((path, start, end, new))
                line, column = text.count("\n", 0, start) + 1, start - text.rfind("\n", 0, start)
                places[path, start, kind].append(Bug(crate, path, line, column, kind, start, end, text[start:end], new))
    return [places[it] for it in sorted(places)]


def drawn(places, crate, seed):
    """The places of a crate in the order in which bugs are planted in them, the kinds in turn, each with its bugs as they are tried."""
    chance, of_kind = random.Random(f"{seed} {crate}"), collections.defaultdict(list)
    for bugs in places:
        of_kind[bugs[0].kind].append(chance.sample(bugs, len(bugs)))
    for found in of_kind.values():
        chance.shuffle(found)
    kinds = chance.sample(sorted(of_kind), len(of_kind))
    most = max(map(len, of_kind.values()), default=0)
    return [of_kind[kind][number] for number in range(most) for kind in kinds if number < len(of_kind[kind])]


def shares(places, number, least):
    """How many bugs each crate gets: in proportion to its places, but at least a number."""
    total = sum(map(len, places.values()))
    share = {crate: max(least, round(number * len(found) / total)) if total else 0 for crate, found in places.items()}
    return {crate: min(much, len(places[crate])) for crate, much in share.items()}


# ---- Planting and judging.


class Worker:
    """A copy of the repository in which one bug at a time is planted."""

    def __init__(self, top, room, jobs):
        self.top, self.jobs, self.sound, self.wrote = pathlib.Path(room), jobs, {}, ""
        for name in ("crates", "crates.txt", "HANDLES"):
            if (top / name).is_dir():
                shutil.copytree(top / name, self.top / name, symlinks=True)
            elif (top / name).exists():
                shutil.copy2(top / name, self.top / name)

    def checked(self, crate, seconds):
        """What a crate comes to as it stands: its check, and in a program that is proved its run."""
        folder = self.top / "crates" / crate
        status, self.wrote = called(["rt", "check", "--jobs", str(self.jobs)], folder, seconds)
        judged = judged_check(status, self.wrote)
        return judged_run(folder, crate, seconds) if judged[0] == PROVED and is_program(self.top, crate) else judged

    def judge(self, bug, seconds):
        """What the bug comes to, and the line that says why. That the crate is well with no bug is seen first."""
        if bug.crate not in self.sound:
            self.sound[bug.crate] = self.checked(bug.crate, 10 * seconds)
        if self.sound[bug.crate][0] != PROVED:
            return UNJUDGED, f"the crate with no bug: {self.sound[bug.crate][0]}: {self.sound[bug.crate][1]}"
        path = self.top / bug.path
        text = path.read_text(encoding="utf-8")
        if text[bug.start : bug.end] != bug.old:
            return UNJUDGED, "the file has changed"
        path.write_text(text[: bug.start] + bug.new + text[bug.end :], encoding="utf-8")
        try:
            return self.checked(bug.crate, seconds)
        finally:
            path.write_text(text, encoding="utf-8")


def called(words, folder, seconds, given=b""):
    """Runs a command, and ends it with all that it started when its time is over. Gives its status, or none, and what it wrote."""
    how = {"stdin": subprocess.PIPE, "stdout": subprocess.PIPE, "stderr": subprocess.STDOUT, "start_new_session": True}
    started = subprocess.Popen(words, cwd=folder, **how)
    try:
        wrote, _ = started.communicate(given, timeout=seconds)
        return started.returncode, wrote.decode(errors="replace")
    except subprocess.TimeoutExpired:
        os.killpg(started.pid, signal.SIGKILL)
        started.communicate()
        return None, ""


# Lines of a check: what tells of an error; what tells that a proof file names what is gone, or has no proof of the form that the code now
# asks for; what tells that the prover has no rules for such code; and an error before the prover is reached.
TOLD = re.compile(r"note: \S+:\d+:\d+:|\S+\.(?:rt|antt)(?::\d+)*: .*\berror\b|fn \S+: no proof")
GONE = re.compile(
    r"(?:note: )?(?:\./)?proofs/.*"
    r"(?:has no field|is not in scope|has no `|can be named from here|was not admitted|in a cycle of calls|rattle does not read)"
)
BEYOND = re.compile(r"fn \S+: no proof.* does not cover this function")
CODE = re.compile(r"\berror\[[\w-]+\]")


def judged_check(status, wrote):
    """What a check came to by its status and by what it wrote."""
    lines = wrote.splitlines()
    if status == 0:
        return PROVED, ""
    if status is None:
        return UNJUDGED, "its time was over"
    told = [line for line in lines if TOLD.match(line)]
    if status == 1 and any(line.startswith("logic=not-proved") for line in lines):
        return judged_errors(told)
    code = next((line for line in lines if CODE.search(line)), "")
    return (NO_CODE, code) if status == 1 and code else (UNJUDGED, (told or lines or [""])[-1])


def judged_errors(told):
    """What a check came to that proved not all, by its lines that tell why."""
    errors = [line for line in told if not line.startswith("fn ")]
    real = [line for line in errors if not GONE.match(line)]
    beyond = [line for line in told if BEYOND.match(line)]
    if real or not errors and not beyond:
        return REFUSED, (real or told or [""])[0]
    return (UNJUDGED, beyond[0]) if beyond else (UNFIT, errors[0])


def judged_run(folder, crate, seconds):
    """Whether a program that is still proved writes what its file stdout has, and passes its tests."""
    program = folder / "out" / crate
    program.unlink(missing_ok=True)
    status, wrote = called(["rt", "run"], folder, seconds + RUN_SECONDS)
    if not program.exists():
        return UNJUDGED, "not built: " + short(wrote)[-300:]
    with tempfile.TemporaryDirectory(prefix="plant-run-") as room:
        if (folder / "data").is_dir():
            shutil.copytree(folder / "data", room, dirs_exist_ok=True)
        read = lambda name: (folder / name).read_bytes() if (folder / name).exists() else b""
        status, wrote = called([str(program), *read("args").decode().splitlines()], room, RUN_SECONDS, read("stdin"))
    if status is None:
        return OUTPUT, "the program did not end"
    if status != int(read("status") or b"0"):
        return OUTPUT, f"the program ended with status {status}"
    if wrote != read("stdout").decode(errors="replace"):
        return OUTPUT, "the program wrote something else"
    return judged_tests(folder, seconds)


def judged_tests(folder, seconds):
    """Whether the tests of a program pass, where it has any."""
    if not any("#[test]" in file.read_text(encoding="utf-8") for file in (folder / "src").rglob("*.rt")):
        return PROVED, ""
    status, wrote = called(["rt", "test"], folder, seconds + RUN_SECONDS)
    if status is None:
        return UNJUDGED, "the tests did not end"
    return (OUTPUT, "a test fails: " + short(wrote)[-200:]) if status else (PROVED, "")


class Run:
    """Bugs planted by several workers, crate by crate, until each crate has its number of bugs that are code."""

    def __init__(self, options, places, share):
        self.options, self.share = options, share
        self.waiting = {crate: drawn(found, crate, options.seed) for crate, found in places.items()}
        self.counted = collections.Counter()
        self.running = collections.Counter()
        self.known = {row[:7]: row for row in rows_in(options.results)}
        self.lock = threading.Lock()

    def next(self):
        """The next place to plant in, its first bug first, or none when each crate has its number; what an earlier run judged is passed over."""
        with self.lock:
            for crate, bugs in self.waiting.items():
                while bugs and self.counted[crate] + self.running[crate] < self.share[crate]:
                    place = bugs.pop(0)
                    if place[0].key() not in self.known:
                        self.running[crate] += 1
                        return place
                    self.settle(place, self.known[place[0].key()][7])
        return None

    def settle(self, place, outcome):
        """Counts a bug that was judged. Where it is no code, the next bug of the same place comes first, or else the next place."""
        crate = place[0].crate
        self.counted[crate] += outcome != NO_CODE
        if outcome == NO_CODE and place[1:]:
            self.waiting[crate].insert(0, place[1:])

    def tell(self, place, outcome, why):
        bug = place[0]
        with self.lock:
            self.running[bug.crate] -= 1
            self.settle(place, outcome)
            with open(self.options.results, "a", encoding="utf-8") as file:
                print(*bug.key(), outcome, short(why), sep="\t", file=file)
            so_far = f"{sum(self.counted.values())} of {sum(self.share.values())}"
            print(f"{so_far}: {outcome}: {bug.path}:{bug.line}:{bug.column} {bug.kind}", file=sys.stderr, flush=True)

    def keep(self, bug, wrote):
        """Keeps what the check of a bug wrote, where that is wanted."""
        if self.options.logs:
            os.makedirs(self.options.logs, exist_ok=True)
            name = f"{bug.path}-{bug.line}-{bug.column}-{bug.kind}-{short(bug.new)}"
            pathlib.Path(self.options.logs, re.sub(r"\W+", "-", name)[:200]).write_text(wrote, encoding="utf-8")

    def is_over(self):
        with self.lock:
            return not any(self.running.values())

    def work(self, room):
        worker = Worker(TOP, room, max(1, (os.cpu_count() or 1) // self.options.workers))
        while True:
            place = self.next()
            if place:
                self.tell(place, *worker.judge(place[0], self.options.seconds))
                self.keep(place[0], worker.wrote)
            elif self.is_over():
                return
            else:
                threading.Event().wait(1)

    def all(self):
        with tempfile.TemporaryDirectory(prefix="plant-bugs-") as room, concurrent.futures.ThreadPoolExecutor(self.options.workers) as pool:
            for done in [pool.submit(self.work, f"{room}/{number}") for number in range(self.options.workers)]:
                done.result()


# ---- Results and tables.


def rows_in(file):
    if not file or not os.path.exists(file):
        return []
    with open(file, encoding="utf-8") as lines:
        return [tuple(line.rstrip("\n").split("\t")) for line in lines if line.strip()]


# A refusal whose first error stands in a proof file shows less than one in src/: any other way to the same answer might be refused there too.
IN_PROOF = "in a proof file"
HEADS = ["planted", REFUSED, IN_PROOF, OUTPUT, UNFIT, UNJUDGED, PROVED]


def counts(rows):
    found = collections.Counter(row[7] for row in rows)
    found["planted"] = len(rows)
    found[IN_PROOF] = sum(row[7] == REFUSED and re.match(r"(?:note: )?(?:\./)?proofs/", row[8]) is not None for row in rows)
    return [found[head] for head in HEADS]


def table(heads, rows, is_markdown):
    """Rows of cells as text: in columns, or in Markdown."""
    rows = [heads, *([str(cell) for cell in row] for row in rows)]
    if is_markdown:
        rows.insert(1, ["---"] + ["---:"] * (len(heads) - 1))
        return "\n".join(f"| {' | '.join(row)} |" for row in rows)
    wide = [max(len(row[at]) for row in rows) for at in range(len(heads))]
    return "\n".join("  ".join(cell.rjust(size) if at else cell.ljust(size) for at, (cell, size) in enumerate(zip(row, wide))) for row in rows)


def print_tables(rows, places, is_markdown):
    crates = [it for it in places if any(row[0] == it for row in rows)]
    lines = [[crate, len(places[crate]), *counts([row for row in rows if row[0] == crate])] for crate in crates]
    lines.append(["all", sum(line[1] for line in lines), *counts(rows)])
    print(table(["crate", "places", *HEADS], lines, is_markdown), end="\n\n")
    of_kind = collections.Counter(bugs[0].kind for crate in crates for bugs in places[crate])
    kinds = sorted({row[4] for row in rows})
    lines = [[kind, of_kind[kind], *counts([row for row in rows if row[4] == kind])] for kind in kinds]
    print(table(["kind", "places", *HEADS], lines, is_markdown), end="\n\n")
    print_survivors([row for row in rows if row[7] in (PROVED, UNFIT, UNJUDGED)], is_markdown)


def print_survivors(rows, is_markdown):
    """Each bug that was not refused for what it does."""
    mark = "`" if is_markdown else "'"
    code = lambda text: f"{mark}{text if len(text) < 100 else text[:97] + '...'}{mark}" if text else "nothing"
    for _, path, line, column, kind, old, new, outcome, *why in sorted(rows):
        said = f": {why[0][:200]}" if why and why[0] else ""
        print(f"- {code(f'{path}:{line}:{column}')} ({kind}) {code(old)} to {code(new)}: {outcome}{said}")


def options():
    parser = argparse.ArgumentParser(description=__doc__.split("\n")[0])
    parser.add_argument("crates", nargs="*", help="the crates to plant in; none given: all but the tests")
    parser.add_argument("--bugs", type=int, default=240, help="how many to plant in all")
    parser.add_argument("--least", type=int, default=5, help="how many to plant in each crate at least")
    parser.add_argument("--seed", default="1", help="another seed draws other bugs")
    parser.add_argument("--workers", type=int, default=2, help="how many checks run at once")
    parser.add_argument("--seconds", type=int, default=240, help="how long a check may take")
    parser.add_argument("--results", default="plant_bugs.tsv", help="the file that the results are written to, and gone on from")
    parser.add_argument("--logs", metavar="FOLDER", help="keep there what each check wrote")
    parser.add_argument("--list", action="store_true", help="only list what would be planted")
    parser.add_argument("--tables", metavar="FILE", help="only print the tables of a file of results")
    parser.add_argument("--markdown", action="store_true", help="print tables as Markdown")
    return parser.parse_args()


def main():
    given = options()
    known = [it for it in crates_of(TOP) if it not in TESTS]
    crates = given.crates or known
    if set(crates) - set(known):
        sys.exit(f"no crate to plant in: {', '.join(sorted(set(crates) - set(known)))}")
    places = places_of(TOP, crates)
    share = shares(places, given.bugs, given.least)
    if given.list:
        for crate in crates:
            for bugs in drawn(places[crate], crate, given.seed)[: share[crate]]:
                print(*bugs[0].key(), sep="\t")
        return
    if not given.tables:
        Run(given, places, share).all()
    print_tables([row for row in rows_in(given.tables or given.results) if row[7] != NO_CODE and row[0] in places], places, given.markdown)


if __name__ == "__main__":
    main()
