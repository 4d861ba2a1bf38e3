#!/usr/bin/env python3
"""Measures how much stack the public calls need.

    tools/stack.py                   prints two tables in Markdown; fails where a call needs more than 200,000 bytes
    tools/stack.py --keep FOLDER     the same, and leaves what was made in FOLDER, which must not be there yet

To a copy of the libraries a crate `stack` is added, a static library with an export for each call and each kind of value. An
export makes what a caller holds (axes, a plan, stores), has the stack below it painted, by a function of a C program with which
gcc links the library, and then makes the call. How far down the paint is gone is what the call needs. What the caller holds lies
above, and so does the place into which the call writes its answer. Each export is run on every plan file of the texts in
crates/plan_files/data, which lie on both sides of every limit, and the deepest run counts, refused or not; a store holds 4,096
values at most. `rt` lets the crate call C since RT_ALLOW_C says so, which is set for the copy alone. It takes two or three
minutes where out/ has what `rt check` kept. Needs of 144 bytes and less are not told apart.
"""
import argparse
import itertools
import os
import pathlib
import re
import shutil
import subprocess
import sys
import tempfile
from typing import NamedTuple

TOP = pathlib.Path(__file__).resolve().parent.parent
TEXTS = [TOP / "crates" / "plan_files" / "data" / name for name in ("by-hand.txt", "by-chance.txt")]
MOST = 200_000
UNSEEN = 16 + 128  # what lies between the frame of an export and the paint: see `stack_paint`
USED = "values geometry scan calls planfile sweeps shadows".split()

# What a caller lends to a function that makes a call for it. V is a kind of value, and each of these is measured.
LENT = (
    "one: i32; draft: &mut Draft; own: Draft; bytes: &'a [u8]; rest: &[u8]; start: usize; plan: &Plan; view: usize; factor: V; "
    "within: VoxelBox; row: &[Call<V>]; volume: &mut [V]; measured: &mut [V]; working: &mut [V]; counts: &mut [Count]; "
    "reaches: &[Reach]; shadow: &mut Shadow; reply: &mut Answer"
).split("; ")
KINDS = {"Count": "Count { bits: 1 }", "Reach": "Reach { yes: true }", "Pair": "Pair { first: Count { bits: 1 }, second: Count { bits: 1 } }"}


class Call(NamedTuple):
    shown: str
    answer: str  # the type of what it answers
    code: str  # makes the call
    held: str = ""  # makes what a caller holds, before the stack is painted
    kind: str = ""

    def of_each_kind(self):
        if "factor" not in self.held:
            return [self]
        return [self._replace(held=f"let factor = {value}; {self.held}", kind=kind) for kind, value in KINDS.items()]


# Axes of the most edges, a draft of such axes, and the plan of a file with stores of its lengths, as far as there is room in them.
EDGES = "let mut edges = [0i32; MOST_EDGES]; let mut next = -256i32; for edge in &mut edges { *edge = next; next = next.wrapping_add(1); }"
LISTED = EDGES + " let Ok(listed) = ListedAxis::new(&edges) else { return 2; };"
EVEN = "let Ok(even) = EvenAxis::new(-256, 1, 512) else { return 2; };"
HEADINGS = " let headings = &[Heading { c: 16384, s: 0 }; MOST_DIRECTIONS];"
DRAFT = EVEN + " let Ok(mut draft) = Draft::new(2000, 4000, &even, &even, &even, &even, &even) else { return 2; };"
PLAN = "let Ok((plan, rest)) = read_plan(bytes) else { return 2; }; let plan = &plan;"
VOLUME = " let volume = &mut full(plan.voxels(), factor);"
MEASURED = " let measured = &mut full(plan.places(), factor);"
WORKING = " let working = &mut full(plan.places(), factor); let view = plan.views().saturating_sub(1);"
BOX = " let within = VoxelBox { x: all(plan, ScanAxis::X), y: all(plan, ScanAxis::Y), z: all(plan, ScanAxis::Z) };"
ROW = PLAN + WORKING + VOLUME + MEASURED + BOX + (
    " let row = &[Call::Forward { view, factor }, Call::Back { view, factor }, Call::Take { view, factor },"
    " Call::Give { view, factor }, Call::Scale { view, factor }, Call::Trim { within }];"
)
SHADOW = "let shadow = &mut Shadow::default();"
ANSWER = "let reply = &mut Answer::default();"
DONE = "Result<(), Refusal>"
PERFORM = "let mut last = Ok(()); for &call in row { last = perform(plan, call, volume, measured, working); } last"
CALLS = [
    Call("ListedAxis::new", "Result<ListedAxis, Refusal>", "ListedAxis::new(&edges)", EDGES),
    Call("EvenAxis::new", "Result<EvenAxis, Refusal>", "EvenAxis::new(-256, one, 512)"),
    Call("Draft::new", "Result<Draft, Refusal>", "Draft::new(2000, 4000, &listed, &listed, &listed, &listed, &listed)", LISTED),
    Call("Draft::new", "Result<Draft, Refusal>", "Draft::new(2000, 4000, &even, &even, &even, &even, &even)", EVEN),
    Call("Draft::with_directions", "Result<Draft, Refusal>", "Draft::with_directions(2000, 4000, &even, &even, &even, &even, &even, headings)", EVEN + HEADINGS),
    Call("Draft::add_view", "Result<usize, Refusal>", "draft.add_view(one)", DRAFT + " let draft = &mut draft;"),
    Call("Draft::seal", "Plan", "own.seal()", DRAFT + " let _ = draft.add_view(1); let own = draft;"),
    Call("read_plan", "Result<(Plan, &[u8]), Fault>", "read_plan(bytes)"),
    Call("voxel_values", "Result<Numbers<'a>, Fault>", "voxel_values(plan, bytes, start)", PLAN + " let start = bytes.len().saturating_sub(rest.len());"),
    Call("read_values", "Result<(), Fault>", "read_values(plan, rest, counts)", PLAN + " let counts = &mut full(plan.voxels(), Count { bits: 1 });"),
    Call("forward", DONE, "forward(plan, view, factor, volume, working)", PLAN + WORKING + VOLUME),
    Call("back", DONE, "back(plan, view, factor, volume, working)", PLAN + WORKING + VOLUME),
    Call("take", DONE, "take(plan, view, factor, measured, working)", PLAN + WORKING + MEASURED),
    Call("give", DONE, "give(plan, view, factor, measured, working)", PLAN + WORKING + MEASURED),
    Call("scale", DONE, "scale(plan, view, factor, working)", PLAN + WORKING),
    Call("trim", DONE, "trim(plan, within, volume)", PLAN + VOLUME + BOX),
    Call("perform", DONE, PERFORM, ROW),
    Call("run", "Result<usize, Refusal>", "run(plan, row, volume, measured, working)", ROW),
    Call("tally", "usize", "tally(reaches)", "let reaches = &full(MOST_PLACES, Reach { yes: true });"),
    Call("Shadow::default", "Shadow", "Shadow::default()"),
    Call("shadow_of", "Result<(), NoShadow>", "shadow_of(bytes, shadow)", SHADOW),
    Call("Answer::default", "Answer", "Answer::default()"),
    Call("answer_to", "bool", "answer_to(bytes, reply); reply.refusal.is_none()", ANSWER),
]
CALLS = [each for call in CALLS for each in call.of_each_kind()]
# How an answer that is no Result tells that the call was accepted.
ACCEPTED = {"Plan": "{}.views() == 1", "Shadow": "{}.rows == 1", "Answer": "{}.shadow.rows == 1", "usize": "{} == MOST_PLACES", "bool": "{}"}
# These answer what is large. A function around such a call would have a place of its own for the answer, so the export makes the call
# itself; and so that the code of the call is not put into the export, the copy says `inline(never)` before this line of this file.
APART = {
    "ListedAxis::new": ("scan/src/listed.rt", "    pub fn new("),
    "Draft::new": ("scan/src/draft.rt", "    pub fn new<"),
    "Draft::with_directions": ("scan/src/draft.rt", "    pub fn with_directions<"),
    "read_plan": ("planfile/src/plan.rt", "pub fn read_plan("),
    "Shadow::default": ("shadows/src/shadow.rt", "    fn default("),
    "Answer::default": ("shadows/src/answer.rt", "    fn default("),
}
HELD = ["EvenAxis", "ListedAxis", "Draft", "Plan", "Shadow", "Answer"]

CRATE = """\
//! Each public call behind an export, for a measurement of the stack that it needs.
#![tactic(auto)]

use arrayvec::ArrayVec;
use calls::{call::Call, voxel_box::{Bounds, VoxelBox}};
use geometry::heading::Heading;
use planfile::{fault::Fault, numbers::Numbers, plan::read_plan, voxels::{read_values, voxel_values}};
use scan::{axis::MOST_EDGES, directions::MOST_DIRECTIONS, draft::Draft, even::EvenAxis, listed::ListedAxis, plan::Plan, refusal::Refusal, scan_axis::ScanAxis};
use shadows::{answer::{Answer, answer_to}, file::shadow_of, refusal::Refusal as NoShadow, shadow::{MOST_PLACES, Shadow}};
use std::mem::size_of;
use sweeps::{backprojection::back, projection::forward, row::{perform, run}, scaling::scale, tally::tally};
use sweeps::{transfer::{give, take}, trimming::trim};
use values::{count::Count, pair::Pair, reach::Reach, value::Value};

unsafe extern "C" { safe fn stack_paint() -> i32; }

fn full<V: Value + Default + Drop>(n: usize, value: V) -> ArrayVec<V, MOST_PLACES> {
    let mut store = ArrayVec::new();
    for _ in 0..n.min(MOST_PLACES) { let _ = store.try_push(value); }
    store
}

fn all(plan: &Plan, axis: ScanAxis) -> Bounds { Bounds { lower: 0, upper: plan.cells_along(axis) } }

/// The size of a type.
#[unsafe(no_mangle)]
pub extern "C" fn stack_size(number: usize) -> usize { match number { SIZES _ => 0 } }
"""
# That the call comes after the painting is sure, since whether it comes is up to what the C function answers.
EXPORT = """
/// {shown}
#[unsafe(no_mangle)]
pub extern "C" fn stack_{number}(bytes: &[u8]) -> u8 {{
    {held}
    let one = stack_paint();
    if one < 1 {{ return 2; }}
    u8::from({accepted})
}}
"""
# The function around a call, whose frame is not the export's.
MADE = """
#[inline(never)]
fn made_{number}<'a>({parameters}) -> {answer} {{ {code} }}
"""
# The page below the thread's stack may not be touched: a call that runs past the end ends the program.
PROGRAM = r"""
#include <pthread.h>
#include <stdint.h>
#include <stdio.h>
#include <sys/mman.h>
#define SIZE (1u << 20)
#define PAINT 0xA5A5A5A5A5A5A5A5u

size_t stack_size(size_t);
DECLARED
static uint8_t (*const exports[])(const uint8_t *, size_t) = {NAMES};
#define EXPORTS (sizeof exports / sizeof *exports)
static uint8_t bytes[1 << 16], *stack, *top; /* the stack's lowest byte, and where the export's frame ends */
static size_t length, at, depth;
static int answer;

/* Paints the stack below the export that calls it. Between lie the address to return to and that of the export's frame, and then
   the 128 bytes that a function which calls none may use below its own frame. */
int32_t stack_paint(void) {
    uint8_t *frame = __builtin_frame_address(0);
    top = frame + 2 * sizeof(void *);
    for (volatile uint64_t *word = (uint64_t *)stack; word < (uint64_t *)(frame - 128); word++) *word = PAINT;
    return 1;
}

static void *thread(void *unused) {
    answer = exports[at](bytes, length);
    /* Looked at here and not later: the end of a thread writes on its stack too. */
    uint64_t *word = (uint64_t *)stack;
    while (word < (uint64_t *)top && *word == PAINT) word++;
    depth = top - (uint8_t *)word;
    return unused;
}

int main(int files, char **file) {
    static size_t deepest[EXPORTS], accepted[EXPORTS];
    uint8_t *room = mmap(0, 4096 + SIZE, PROT_READ | PROT_WRITE, MAP_PRIVATE | MAP_ANONYMOUS, -1, 0);
    if (room == MAP_FAILED || mprotect(room, 4096, PROT_NONE)) return 1;
    top = stack = room + 4096;
    pthread_attr_t attributes;
    pthread_attr_init(&attributes);
    pthread_attr_setstack(&attributes, stack, SIZE);
    for (int i = 1; i < files; i++) {
        FILE *from = fopen(file[i], "rb");
        if (!from) return 1;
        length = fread(bytes, 1, sizeof bytes, from);
        fclose(from);
        for (at = 0; at < EXPORTS; at++) {
            pthread_t id;
            if (pthread_create(&id, &attributes, thread, 0) || pthread_join(id, 0)) return 1;
            accepted[at] += answer == 1;
            /* 2: the file has no plan, and the call was not made. */
            if (answer != 2 && deepest[at] < depth) deepest[at] = depth;
        }
    }
    for (at = 0; at < EXPORTS; at++) printf("%zu %zu %zu\n", deepest[at], accepted[at], stack_size(HELD + at));
    for (at = 0; at < HELD; at++) printf("%zu\n", stack_size(at));
    return 0;
}
"""


def sources():
    """The crate and the C program."""
    crate, names = CRATE, [f"stack_{number}" for number in range(len(CALLS))]
    for number, call in enumerate(CALLS):
        made = call.code
        if call.shown not in APART:
            lent = [each for each in LENT if each.split(":")[0] in re.findall(r"\w+", call.code)]
            parameters = re.sub(r"\bV\b", call.kind, ", ".join(lent))
            crate += MADE.format(number=number, parameters=parameters, answer=call.answer, code=call.code)
            made = f"made_{number}({', '.join(each.split(':')[0] for each in lent)})"
        accepted = ACCEPTED.get(call.answer, "{}.is_ok()").format(made)
        crate += EXPORT.format(shown=call.shown, number=number, held=call.held, accepted=accepted)
    types = HELD + [call.answer.replace("'a", "'static") for call in CALLS]
    sizes = " ".join(f"{number} => size_of::<{each}>()," for number, each in enumerate(types))
    declared = "\n".join(f"uint8_t {name}(const uint8_t *, size_t);" for name in names)
    program = PROGRAM.replace("DECLARED", declared).replace("NAMES", ", ".join(names)).replace("HELD", str(len(HELD)))
    return crate.replace("SIZES", sizes), program


def called(command, folder, **more):
    """What a command writes; where it fails, so does this program."""
    done = subprocess.run(command, cwd=folder, text=True, stdout=subprocess.PIPE, stderr=subprocess.STDOUT, **more)
    if done.returncode:
        sys.exit(f"{done.stdout}{command[0]}: status {done.returncode}")
    return done.stdout


def plan_files(folder):
    """Writes each plan file of the texts to a file of its own; answers their paths."""
    folder.mkdir()
    paths = []
    for text in TEXTS:
        for number, entry in enumerate(text.read_text(encoding="utf-8").split("\n\n")[1:]):
            digits = "".join(line for line in entry.splitlines()[1:] if not line.startswith("= "))
            paths.append(folder / f"{text.stem}-{number}")
            paths[-1].write_bytes(bytes.fromhex(digits))
    return paths


def measured(folder):
    """The numbers that the program prints, line by line."""
    folder.mkdir(parents=True)
    lines = [line for line in (TOP / "crates.txt").read_text().splitlines() if line.split(":")[0].strip() in USED]
    (folder / "crates.txt").write_text("\n".join([*lines, f"stack staticlib: arrayvec {' '.join(USED)}\n"]))
    for name in USED:
        shutil.copytree(TOP / "crates" / name, folder / "crates" / name, symlinks=True)
    for file, start in APART.values():
        path = folder / "crates" / file
        text = path.read_text(encoding="utf-8")
        if text.count(f"\n{start}") != 1:
            sys.exit(f"{file}: not one line begins with {start!r}")
        path.write_text(text.replace(f"\n{start}", f"\n#[inline(never)]\n{start}"), encoding="utf-8")
    stack, (crate, program) = folder / "crates" / "stack", sources()
    for file, text in {"src/lib.rt": crate, "specs/Lib.antt": "\n", "proofs/Lib.antt": "\n", "c/stack.c": program}.items():
        (stack / file).parent.mkdir(parents=True)
        (stack / file).write_text(text, encoding="utf-8")
    called(["rt", "lib"], stack, env={**os.environ, "RT_ALLOW_C": "stack"})
    # By `now` the functions of C are found before the program starts; else the first call of each would pay for it.
    called(["gcc", "-O1", "-o", "stack", "c/stack.c", "out/libstack.a", "-lpthread", "-Wl,-z,now"], stack)
    return [list(map(int, line.split())) for line in called([stack / "stack", *plan_files(folder / "files")], folder).splitlines()]


def main():
    parser = argparse.ArgumentParser(description=__doc__, formatter_class=argparse.RawDescriptionHelpFormatter)
    parser.add_argument("--keep", metavar="FOLDER", type=pathlib.Path)
    keep = parser.parse_args().keep
    if keep and keep.exists():
        parser.error(f"{keep} is there already")
    for needed in ("rt", "gcc"):
        if not shutil.which(needed):
            sys.exit(f"{needed} is missing")
    with tempfile.TemporaryDirectory(prefix="stack-") as room:
        lines = measured(keep.resolve() if keep else pathlib.Path(room) / "copy")
    wrong = []
    print("| call | stack that it needs, bytes | place of its answer, bytes | deepest with |")
    print("|---|---|---|---|")
    for shown, group in itertools.groupby(zip(CALLS, lines), lambda each: each[0].shown):
        group = list(group)
        call, (depth, _, place) = max(group, key=lambda each: each[1][0])
        need, kind = (f"{depth:,}", call.kind) if depth > UNSEEN else (f"at most {UNSEEN}", "")
        print(f"| `{shown}` | {need} | {place:,} | {kind} |")
        if depth > MOST:
            wrong.append(f"{shown} needs {depth:,} bytes of stack, more than {MOST:,}")
        wrong += [f"{shown}: accepted with no file ({each.kind or each.code})" for each, (_, accepted, _) in group if not accepted]
    print("\n| what a caller holds | bytes |")
    print("|---|---|")
    for held, (size,) in zip(HELD, lines[len(CALLS) :]):
        print(f"| `{held}` | {size:,} |")
    for line in wrong:
        print(line, file=sys.stderr)
    sys.exit(bool(wrong))


if __name__ == "__main__":
    main()
