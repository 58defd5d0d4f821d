#!/usr/bin/env python3
"""Checks a file of certificates, and shares nothing with `crp`: written from docs/FORMATS.md alone, over the standard library.
usage: check.py FILE
It writes the lines that `crp check FILE` writes; where a certificate is refused, its fault to standard error, with status 6."""
import re
import sys

NUMBER = rb"(0|[1-9][0-9]*)"
BEYOND = 10 ** 9  # above every limit of a certificate


class Fault(Exception):
    pass


def read_number(digits):
    """The number; of one with ten digits or more only that it is too large, which takes no time."""
    return int(digits) if len(digits) < 10 else BEYOND


def settle(ordered, position):
    """The position once every retrieval that is legal was made: the next rank, and the stacks. A rank that is missing is passed over."""
    rank, stacks = position
    while rank <= ordered:
        row = next((i for i, stack in enumerate(stacks) if rank in stack), None)
        if row is not None:
            if stacks[row][-1] != rank:
                break
            stacks = stacks[:row] + (stacks[row][:-1],) + stacks[row + 1:]
        rank += 1
    return rank, stacks


def targets(heights, ordered, position):
    """The legal rows, rising, from 1."""
    rank, stacks = position
    if rank > ordered:
        return []
    return [i + 1 for i, stack in enumerate(stacks) if len(stack) < heights[i] and rank not in stack]


def child(heights, ordered, position, row):
    rank, stacks = position
    stacks = list(stacks)
    source = next(i for i, stack in enumerate(stacks) if rank in stack)
    stacks[row - 1] += (stacks[source][-1],)
    stacks[source] = stacks[source][:-1]
    return settle(ordered, (rank, tuple(stacks)))


def blocking(heights, ordered, position):
    return sum(any(d <= ordered and d < c for d in stack[:i]) for stack in position[1] for i, c in enumerate(stack))


def look_ahead(heights, ordered, position):
    rank, stacks = position
    stacks, again = list(stacks), 0
    for k in range(rank, ordered + 1):
        row = next((i for i, stack in enumerate(stacks) if k in stack), None)
        if row is None:
            continue
        place = stacks[row].index(k)
        others = [stack for i, stack in enumerate(stacks) if i != row and len(stack) < heights[i]]
        again += sum(all(any(d <= ordered and d < c for d in stack) for stack in others) for c in stacks[row][place + 1:])
        stacks[row] = stacks[row][:place]
    return blocking(heights, ordered, position) + again


def lower(ordered, container, stack):
    return any(d <= ordered and d < container for d in stack)


def moved(ordered, position, row):
    """The container on top of the next one goes to a row, or without one out of the bay."""
    rank, stacks = position
    stacks = list(stacks)
    source = next(i for i, stack in enumerate(stacks) if rank in stack)
    container = stacks[source][-1]
    stacks[source] = stacks[source][:-1]
    if row is not None:
        stacks[row - 1] += (container,)
    return settle(ordered, (rank, tuple(stacks)))


def hinders_nobody(ordered, container, stacks, height, onto):
    above = [(c, stack[:i]) for stack in stacks for i, c in enumerate(stack)]
    missed = any(c > container and lower(ordered, container, under) and not lower(ordered, c, onto) for c, under in above)
    to_come = sum(c < container and lower(ordered, c, under) for c, under in above)
    return container <= ordered and not missed and len(onto) + 1 + to_come <= height


def gain(heights, ordered, position, chains):
    """What chains of containers gain over the blocking bound. None where they are no family."""
    _, stacks = position
    ranks, gained = [c for chain in chains for c in chain], 0
    if len(set(ranks)) < len(ranks):
        return None
    beneath = {c: stack[:i] for stack in stacks for i, c in enumerate(stack)}
    for chain in chains:
        if not all(c in beneath and lower(ordered, c, beneath[c]) for c in chain):
            return None
        turns = [min(d for d in beneath[c] if d <= ordered) for c in chain]
        for i in range(1, len(chain)):
            a, b = chain[i - 1], chain[i]
            comes = turns[i - 1] < turns[i] or turns[i - 1] == turns[i] and b in beneath[a]
            if not (a <= ordered and a < b and comes and turns[i] < chain[0]):
                return None
        opened = 0
        for height, stack in zip(heights, stacks):
            standing = [stack[:next((i for i, d in enumerate(stack) if d < turn), len(stack))] for turn in turns]
            opened += any(len(rest) < height and not lower(ordered, c, rest) for c, rest in zip(chain, standing))
        gained += max(len(chain) - opened, 0)
    return gained


def shown(heights, ordered, position, text):
    """How many relocations a text of reasons shows to be left, and what follows it. None where it does not fit."""
    kind, text = text[:1], text[1:]
    rank, stacks = position
    if kind == "B":
        return blocking(heights, ordered, position), text
    if kind == "L":
        return look_ahead(heights, ordered, position), text
    if kind == "T":
        family = re.match(r"((?:[0-9]+\.)*[0-9]+)?(,((?:[0-9]+\.)*[0-9]+)?)*;", text)
        words = family[0][:-1] if family else ""
        if not family or re.search(r"\b0[0-9]", words):
            return None
        gained = gain(heights, ordered, position, [[read_number(c) for c in chain.split(".") if c] for chain in words.split(",")])
        return None if gained is None else (blocking(heights, ordered, position) + gained, text[family.end():])
    if kind not in ("R", "F") or rank > ordered:
        return None
    container = next(stack[-1] for stack in stacks if rank in stack)
    rows = [row for row in targets(heights, ordered, position) if not lower(ordered, container, stacks[row - 1])]
    if kind == "F":
        rows = [row for row in rows if hinders_nobody(ordered, container, stacks, heights[row - 1], stacks[row - 1])][:1]
        if not rows:
            return None
    least = None
    for row in rows + ([] if kind == "F" else [None]):
        below = shown(heights, ordered, moved(ordered, position, row), text)
        if below is None:
            return None
        value, text = below[0] + (2 if row is None else 1), below[1]
        least = value if least is None else min(least, value)
    return least, text


def read_head(lines):
    """The head, and how many lines it has."""
    def line(number, code, pattern):
        found = re.fullmatch(pattern + rb"\n", lines[number - 1]) if number <= len(lines) else None
        need(found, f"{code} at line {number}")
        return [it for it in found.groups() if it is not None]

    def need(holds, fault):
        if not holds:
            raise Fault(fault)

    version = int(line(1, "C1", rb"CRP-CERT ([123])")[0])
    block, bay = line(2, "C1", rb"bay ([\x21-\x7e]{1,17}) " + NUMBER)
    need(1 <= read_number(bay) <= 9999, "C1 at line 2")
    rows, tiers, ordered, count = map(read_number, line(3, "C2", rb"size " + b" ".join([NUMBER] * 4)))
    need(1 <= rows <= 12 and 1 <= tiers <= 8 and count <= rows * tiers and ordered <= count, "C2 at line 3")
    at, heights = 4, [tiers] * rows
    if version > 1:
        heights = list(map(int, line(4, "C2", rb"heights((?: [1-8])*)")[0].split()))
        need(len(heights) == rows and max(heights) == tiers, "C2 at line 4")
        at = 5
    stacks, seen = [], set()
    for height in heights:
        stack = tuple(map(read_number, line(at, "C3", rb"row((?: " + NUMBER.replace(b"(", b"(?:") + rb")*)")[0].split()))
        need(len(stack) <= height, f"C3 at line {at}")
        for rank in stack:
            need(1 <= rank <= count and rank not in seen, f"C3 at line {at}")
            seen.add(rank)
        stacks.append(stack)
        at += 1
    need(len(seen) == count, f"C3 at line {at - 1}")
    kind, least = line(at, "C4", rb"(at least|first) " + NUMBER)
    least, cap = read_number(least), ordered * (tiers - 1) + 1
    need(least <= cap and (kind == b"at least" or version > 1), f"C4 at line {at}")
    plan = line(at + 1, "C5", rb"plan( -|(?: (?:[0-9]|[1-9][0-9]))*)")[0]
    plan = None if plan == b" -" else tuple(map(int, plan.split()))
    need(plan is None or len(plan) <= 672, f"C5 at line {at + 1}")
    bay_words = b"bay " + block + b" " + bay
    return (bay_words, heights, ordered, settle(ordered, (1, tuple(stacks))), kind, least, cap, plan, version), at + 1


def plan_fault(heights, ordered, position, plan):
    for step, row in enumerate(plan, 1):
        if position[0] > ordered:
            return f"Q3 at step {step}"
        if not 1 <= row <= len(heights):
            return f"Q1 at step {step}"
        if row not in targets(heights, ordered, position):
            return f"Q2 at step {step}"
        position = child(heights, ordered, position, row)
    return None if position[0] > ordered else "Q4"


def show(name):
    return ".".join(map(str, name)) or "/"


def read_part(head, number, line, names, given):
    """Reads a part line, and keeps its name and those that it gives. Its first wrong node, if it has one."""
    _, heights, ordered, position, kind, least, _, plan, version = head
    found = re.fullmatch(rb"part (/|[1-9][0-9]?(?:\.[1-9][0-9]?){0,7}): ([^\n]*)\n", line)
    if not found:
        raise Fault(f"C6 at line {number}")
    name = () if found[1] == b"/" else tuple(map(int, found[1].split(b".")))
    for row in name:
        if row not in targets(heights, ordered, position):
            raise Fault(f"C6 at line {number}")
        position = child(heights, ordered, position, row)
    if names and name <= names[-1]:
        raise Fault(f"C7 at line {number}")
    symbols, wrong = found[2], None
    spelled = rb"[BLXG]|\[(?:0|[1-9][0-9]{0,2}):[BLTRF0-9.,;]*\]" if version == 3 else rb"[BLXG]"
    if not re.fullmatch(rb"(?:" + spelled + rb")*", symbols) or symbols.startswith(b"G"):
        raise Fault(f"C8 at line {number}")
    symbols = [symbol.decode() for symbol in re.findall(spelled, symbols)]
    if any(symbol[0] == "[" and int(symbol[1:].split(":")[0]) > 255 for symbol in symbols):
        raise Fault(f"C8 at line {number}")
    owed = [(name, position, None)]
    for count, symbol in enumerate(symbols, 1):
        if not owed:
            raise Fault(f"C10 at line {number}")
        path, place, row = owed.pop()
        if symbol == "G":
            given.append(path)
            continue
        if row is not None:
            place = child(heights, ordered, place, row)
        if symbol == "X":
            if place[0] > ordered and wrong is None:
                wrong = f"K4 at part {show(name)} symbol {count}"
            owed += [(path + (row,), place, row) for row in reversed(targets(heights, ordered, place))]
        elif wrong is None:
            text, found = symbol[1:-1].partition(":")[2], None
            if symbol[0] == "[":
                bound = int(symbol[1:].split(":")[0])
                found = shown(heights, ordered, place, text)
            else:
                bound = (blocking if symbol == "B" else look_ahead)(heights, ordered, place)
            needed = least + (kind == b"first" and plan is not None and path < plan)
            if len(path) + bound < needed:
                wrong = f"K3 at part {show(name)} symbol {count}"
            elif symbol[0] == "[" and (found is None or found[1] or found[0] < bound):
                wrong = f"K8 at part {show(name)} symbol {count}"
    if owed:
        raise Fault(f"C9 at line {number}")
    names.append(name)
    return wrong


def check(text):
    """The line of a certificate."""
    lines = text.splitlines(keepends=True) if b"\r" not in text else re.findall(rb"[^\n]*\n|[^\n]+", text)
    head, number = read_head(lines)
    bay, heights, ordered, position, kind, least, cap, plan, _ = head
    names, given, wrong = [], [], None
    for line in lines[number:]:
        number += 1
        if not line.startswith(b"part "):
            break
        found = read_part(head, number, line, names, given)
        wrong = wrong or found
    else:
        number, line = number + 1, b""
    if line != b"end %d\n" % len(names):
        raise Fault(f"C11 at line {number}")
    if len(lines) > number:
        raise Fault(f"C11 at line {number + 1}")
    fault = plan_fault(heights, ordered, position, plan) if plan is not None else None
    if fault:
        raise Fault(f"K2 ({fault})")
    if kind == b"first" and (plan is None or len(plan) != least):
        raise Fault("K2")
    if wrong:
        raise Fault(wrong)
    needed = {(), *given}
    for code, rest in (("K5", needed - set(names)), ("K6", set(names) - needed)):
        if rest:
            raise Fault(f"{code} at {show(min(rest))}")
    if kind == b"first":
        return bay + b": optimal %d first\n" % least
    if plan is not None and len(plan) == least:
        return bay + b": optimal %d\n" % least
    if least == cap:
        return bay + b": no plan\n"
    return bay + b": at least %d" % least + (b"" if plan is None else b", plan of %d" % len(plan)) + b"\n"


def main(name):
    file = sys.stdin.buffer.read() if name == "-" else open(name, "rb").read()
    number = 0
    while file:
        number += 1
        end = re.search(rb"^end [^\n]*\n", file, re.MULTILINE)
        text, file = (file[:end.end()], file[end.end():]) if end else (file, b"")
        try:
            sys.stdout.buffer.write(check(text))
        except Fault as fault:
            sys.stdout.buffer.flush()
            sys.exit(print(f"certificate {number}: {fault}", file=sys.stderr) or 6)


if __name__ == "__main__":
    main(sys.argv[1]) if len(sys.argv) == 2 else sys.exit(__doc__)
