#!/usr/bin/env python3
"""Counts, in the tree that it runs in, the places that docs/DESIGN-PASS.md speaks of: usage: python3 tools/places.py [--names]
By text alone: crates/*/src/*.rt, and crates/*/proofs/**/*.antt for point 8. --names says which functions a count has found."""

import collections
import glob
import re
import sys

# What was written by hand where the library or a derive has it, by the names that such functions have.
BY_HAND = re.compile(r"^(least|lesser|less|max|min|abs|both|more|fewer\w*|is_finite|is_hex|all_hex|all_below|all_one|all_rising|digit|same|equal|copy_\w+|fill|fill_part|clear|clear_\w+|put_floats|with_state|none_falling|counts_up|rising_below|state_number|order_of|stop_of|stage_of|stage_word|record_of|answer_words|outcome_words|no_stop|plain_order|to_float|bits_of|count_up|zero_words|zero_floats|is_run|differs)$")
SEARCH = re.compile(r"^(find|owner|run_end|line_end|field_at|first_start|first_column|first_bad|count)$")
KINDS = r"(?:stage|kind|which|area|own|word|line\[0\])"
# Functions whose number stood for 'none': the place past the end, n, usize::MAX, 10 or 16 for no digit; counted while their type is plain.
NONE_BY_NUMBER = set(
    """frame::digit lists::digit lists::word_at lists::numbers replay::digit replay::length frames::line_end input::first_start input::first_column
    order::first_bad panels::dense tasks::climb turn::turn turn::failed run::run finish::finish survey::stale survey::supernodes begin::steps begin::entries
    matrices::matrix matrices::put_stored""".split()
)
MATRIX = ("input_starts", "input_rows")
SHAPE = ("firsts", "starts", "rows")
FACTOR = ("permutation", "firsts", "starts", "rows", "values")
AREAS = ("permutation", "firsts", "starts", "groups")


# Found by reading the list of functions: each line a group that says one thing.
TWINS = """
areas::clear_words areas::clear_floats update::clear
areas::fill areas::fill_part
areas::copy_part crossing::copy_floats
panel::panel_column panel::column_at panel::column
panel::panel_entry panel::entry_at panel::at
postorder::order postorder::order_part
postorder::move_counts postorder::move_parents
supernodes::supernodes supernodes::supernodes_part
supernodes::push tasks::push_task tasks::push_top
tasks::less job::least damaged::least
frame::digit lists::digit replay::digit
products::add1 products::add4 products::add8
products::set1 products::set4
products::sub1 products::sub4
products::by_ones products::by_fours products::by_eights
damaged::zero_words damaged::zero_floats
analyse::accepted finish::accepted
analysis::refused measure::stop survey::refused
spread::subtract_through spread::product_through spread::store_through
spread::subtract_rising spread::product_rising
solving::subtract solving::subtract_run
solving::reduce solving::reduce_run
solving::forward_supernode solving::backward_supernode
solving::is_run spread::is_run
structure::owner_or postorder::moved
lower::count_line lower::put_line
tree::entries tree::work
structures::sum widths::sum
tasks::own_begins order::count_up
solving::forward solving::backward
solving::forward_column solving::backward_column
solving::forward_columns solving::backward_columns
frame::begin frame::stored frame::side
"""


class Function:
    def __init__(self, crate, name, head, body):
        self.crate, self.name, self.body = crate, name, body
        signature = re.split(r"\n\s*(?:requires|ensures)\b", head)[0]
        self.clauses = head[len(signature) :]
        start, deep = re.search(r"fn \w+", signature).end(), 0
        while deep or signature[start] != "(":
            deep += (signature[start] == "<") - (signature[start] == ">" and signature[start - 1] != "-")
            start += 1
        inner = signature[start + 1 :]
        self.result = ""
        if m := re.search(r"\)\s*->\s*(.+?)\s*\{?\s*$", signature, re.S):
            self.result = m[1]
        inner = re.sub(r"\)\s*(->.*)?\s*\{?\s*$", "", inner, flags=re.S)
        self.parameters = re.findall(r"(?:^|[,(]\s*|\n\s*)(?:mut )?(\w+): ([^,\n]+)", inner)
        self.loops = loops(body)

    def at(self):
        return f"{self.crate}::{self.name}"

    def has(self, names):
        mine = {n: t for n, t in self.parameters}
        first = lambda n: n in mine or n == "firsts" and "first" in mine
        return all(first(n) for n in names)

    def lent_to_read(self, names):
        mine = {("firsts" if n == "first" else n): t.strip() for n, t in self.parameters}
        return all(mine.get(n, "").startswith("&") and not mine[n].startswith("&mut") for n in names)


def loops(body):
    """Each loop of a body that says no range: its test and the lines inside."""
    found, lines = [], body.split("\n")
    for i, line in enumerate(lines):
        if m := re.match(r"(\s*)(?:while|loop)\b(.*)", line):
            inside = []
            for l in lines[i + 1 :]:
                if l.startswith(m[1] + "}"):
                    break
                inside.append(l)
            found.append((m[2], "\n".join(inside)))
    return found


def functions():
    for path in sorted(glob.glob("crates/*/src/*.rt")):
        lines = [re.sub(r"\s*//.*$", "", l) for l in open(path, encoding="utf-8").read().split("\n")]
        i = 0
        while i < len(lines):
            m = re.match(r"(\s*)(?:pub )?fn (\w+)", lines[i])
            if not m:
                i += 1
                continue
            j = i
            while j < len(lines) and not (lines[j] == m[1] + "{" or lines[j].endswith(" {") and not re.match(r"\s*(requires|ensures)", lines[j]) or lines[j].endswith(";")):
                j += 1
            k = j
            while k < len(lines) and not lines[k].startswith(m[1] + "}") and not lines[j].endswith(";"):
                k += 1
            yield Function(path.split("/")[1], m[2], "\n".join(lines[i : j + 1]), "\n".join(lines[j + 1 : k]))
            i = j + 1


def types():
    """The enums and structs, each with the lines inside."""
    for path in sorted(glob.glob("crates/*/src/*.rt")):
        for m in re.finditer(r"^(?:pub )?(enum|struct) (\w+)[^\n;]*\{\n(.*?)^\}", open(path, encoding="utf-8").read(), re.M | re.S):
            yield path.split("/")[1], m[1], m[2], re.sub(r"//.*", "", m[3])


def counted_by_hand(f):
    for test, inside in f.loops:
        for index in re.findall(r"\b(\w+) \+= 1;|\b(\w+) -= 1;", inside):
            if re.search(rf"\b{index[0] or index[1]}\b", test):
                yield f
                break


def say(point, what, found, names):
    found = list(found)
    print(f"{point:>2}  {len(found):>5}  {what}")
    if names and found:
        print("           " + " ".join(f"{n}{'' if c == 1 else f' ({c})'}" for n, c in sorted(collections.Counter(str(x) for x in found).items())))


def heads(text, word):
    """The records that the clauses of a kind speak of."""
    return set(re.findall(r"\b([A-Z]\w+)\b", " ".join(re.findall(rf"\b{word}\b[^{{]*\{{([^\n]*)\}}", text))))


def main():
    names = "--names" in sys.argv
    all_of = list(functions())
    kinds = list(types())
    ours = [f for f in all_of if f.crate != "statement"]

    say(1, "functions that answer a bare Answer", [f.at() for f in ours if f.result == "Answer"], names)
    say(1, "own enums with a variant for 'none', 'wrong' or 'at fault' (StepAnswer, Frame::Wrong, Read)", [f"{c}::{n}" for c, k, n, t in kinds if k == "enum" and c != "statement" and re.search(r"^\s+(Wrong|Fault|Broke|Missing|None)\b", t, re.M)], names)
    say(1, "structs with an answer, a flag or a stage number beside what it is about", [f"{c}::{n}" for c, k, n, t in kinds if k == "struct" and c != "statement" and re.search(r"^\s+(pub )?(answer: Answer|good: bool|differs: bool|stage: usize),", t, re.M)], names)
    say(1, "parameters of type bool", [f.at() for f in ours for n, t in f.parameters if t == "bool"], names)
    say(1, "numbers for kinds: parameters and fields stage, kind, which, area, own, word of type usize", [f.at() for f in ours for n, t in f.parameters if t == "usize" and n in ("stage", "kind", "which", "area", "own", "word")] + [f"{c}::{n}" for c, k, n, t in kinds if c != "statement" for _ in re.findall(r"\b(?:stage|kind|which|area|word): usize", t)], names)
    least = lambda f: "least" in dict(f.parameters) and not dict(f.parameters)["least"].startswith("Option")
    plain = lambda f: least(f) if (f.crate, f.name) in {("finish", "finish"), ("turn", "failed")} else not re.match(r"(Option|Result)\b", f.result)
    say(1, "functions whose number stands for 'none' (a search, a digit, a column that may not be there)", [f.at() for f in ours if f.at() in NONE_BY_NUMBER and plain(f)], names)
    say(1, "functions that answer an Option or a Result", [f.at() for f in ours if re.match(r"(io::|anyhow::)?(Option|Result)\b", f.result)], False)

    there = {f.at() for f in ours}
    twins = [[t for t in group.split() if t in there] for group in TWINS.strip().split("\n")]
    twins = [g for g in twins if len(g) > 1]
    say(2, "groups of functions that differ in a type, a size, an operation or a constant (TWINS), two or more of which stand", [" = ".join(g) for g in twins], names)
    say(2, "functions in them", [t for g in twins for t in g], False)

    say(3, "loops by while or loop", [f.at() for f in all_of for _ in f.loops], names)
    say(3, "of them, loops that count an index of their test by ones", [g.at() for f in all_of for g in counted_by_hand(f)], names)
    say(3, "loops by for", [f.at() for f in all_of for _ in re.findall(r"^\s*for ", f.body, re.M)], False)
    say(3, "iterator chains and methods of slices (iter, fill, copy_from_slice, contains, position, sum, all, any ..)", [f.at() for f in all_of for _ in re.findall(r"\.(?:iter|iter_mut|fill|copy_from_slice|copy_within|rotate_left|rotate_right|contains|is_sorted|partition_point|windows|swap)\(", f.body)], False)

    say(4, "functions that by their names order, compare, copy, clear, fill or convert by hand", [f.at() for f in ours if BY_HAND.match(f.name)], names)

    long = [f.at() for f in all_of if len(f.parameters) > 8]
    say(5, "functions with more than eight parameters", long, names)
    say(5, "parameter lists with input_starts and input_rows", [f.at() for f in all_of if f.has(MATRIX)], names)
    say(5, "parameter lists with firsts, starts and rows lent to be read", [f.at() for f in all_of if f.lent_to_read(SHAPE)], names)
    say(5, "parameter lists with permutation, firsts, starts, rows and values lent to be read", [f.at() for f in all_of if f.lent_to_read(FACTOR)], names)
    say(5, "parameter lists with permutation, firsts, starts and groups to be written", [f.at() for f in all_of if f.has(AREAS) and not f.lent_to_read(AREAS)], False)
    facts = collections.Counter()
    for f in all_of:
        for h in heads(f.clauses, "requires"):
            facts[h] += 1
    often = {h: k for h, k in facts.items() if k > 2}
    say(5, "facts that the requires of three or more functions say (each by its record)", sorted(often), names)
    print("           " + " ".join(f"{h} {k}" for h, k in sorted(often.items(), key=lambda x: (-x[1], x[0]))))
    say(5, "ghost fields", re.findall(r"^\s+ghost \w+: \{", "\n".join(open(p, encoding="utf-8").read() for p in glob.glob("crates/*/src/*.rt")), re.M), False)

    place = re.compile(r"^(at|src|dst|s0|base|off|lo|t0|r0|kr|from)$")
    many = re.compile(r"^(n|m|hi|t1|km|count|many|k)$")
    say(6, "functions with a slice, a place in it and how many stand there", [f.at() for f in ours if any(place.match(n) and t == "usize" for n, t in f.parameters) and any(many.match(n) and t == "usize" for n, t in f.parameters) and any(t.startswith("&") and "[" in t for n, t in f.parameters)], names)
    say(6, "searches of a list by name (find, owner, run_end, line_end, first_..)", [f.at() for f in ours if SEARCH.match(f.name)], names)

    switch = re.compile(rf"(?:match (?:\w+\.)?{KINDS} \{{\s*\d|if [^\n]*(?:\w+\.)?{KINDS} (?:==|<|>|<=|>=) \d)")
    say(7, "switches on a number for a kind or a stage (match on it, or a test of it with a literal)", [f.at() for f in ours for _ in switch.findall(f.body)], names)
    say(7, "functions that a bool tells whether to write, to count or to pass by (push, next ..)", [f.at() for f in ours for n, t in f.parameters if t == "bool" and n in ("yes", "no", "second", "test")], names)
    say(7, "functions that take a step as a closure", [f.at() for f in all_of if any(t == "F" or "Fn(" in t for n, t in f.parameters)], names)

    proofs = glob.glob("crates/*/proofs/**/*.antt", recursive=True)
    texts = {p: open(p, encoding="utf-8").read() for p in proofs}
    answers = {p: t for p, t in texts.items() if p.endswith("Answers.antt")}
    print(f" 8  {len(proofs):>5}  proof files")
    print(f" 8  {sum(t.count(chr(10)) for t in texts.values()):>5}  lines in them")
    print(f" 8  {len(answers):>5}  functions with answers")
    print(f" 8  {sum(len(re.findall(r'^pub [^:]+ : goal[.]', t, re.M)) for t in answers.values()):>5}  answers")
    print(f" 8  {sum(len(re.findall(r'(?:[.]before){2,}', t)) for t in texts.values()):>5}  chains of .before")


if __name__ == "__main__":
    main()
