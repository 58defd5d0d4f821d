"""The report of a run over a yard, as docs/FORMATS.md has it."""
from __future__ import annotations

import re
from dataclasses import dataclass
from typing import List, Match, Optional, Tuple

from .verdict import Kind, Verdict

NUMBER = rb"(0|[1-9][0-9]{0,9})"
NAME = rb"([\x20-\xff]{1,35})"
ORDERS = re.compile(b"orders %b open %b absent %b" % (NUMBER, NUMBER, NUMBER))
BAY = re.compile(
    rb"bay ([\x21-\x7e]{1,17}) ([1-9][0-9]{0,3}): "
    rb"(?:optimal %b( first)?|(no plan)|between %b and (?:%b|none), (budget|memory|time|edited))" % (NUMBER, NUMBER, NUMBER)
)
MOVE = re.compile(rb"(?:shift %b\.%b %b\.%b|take %b\.%b) %b" % (NUMBER, NUMBER, NUMBER, NUMBER, NUMBER, NUMBER, NAME))
LAST = re.compile(b"bays %b decided %b" % (NUMBER, NUMBER))


@dataclass(frozen=True)
class Move:
    """A relocation, or a take, which has no `to_row` and no `to_tier`. Rows and tiers count from 1."""

    container: str
    from_row: int
    from_tier: int
    to_row: Optional[int] = None
    to_tier: Optional[int] = None

    @property
    def is_take(self) -> bool:
        return self.to_row is None


@dataclass(frozen=True)
class Bay:
    """What a run says of a bay, and the moves of its plan."""

    block: str
    bay: int
    verdict: Verdict
    cause: Optional[str]
    """Of Kind.BOUNDS: `budget`, `memory`, `time`, or `edited` where somebody edited the moves."""
    moves: Tuple[Move, ...]

    @property
    def name(self) -> str:
        """The name of the bay, as the option `bay` of a run takes it."""
        return f"{self.block} {self.bay}"

    @property
    def relocations(self) -> int:
        return sum(not it.is_take for it in self.moves)


@dataclass(frozen=True)
class Report:
    """A report: the loading orders, the loading slots without a container, the ordered containers that are not in the yard, and the bays."""

    orders: int
    open: int
    absent: int
    bays: Tuple[Bay, ...]

    @property
    def decided(self) -> int:
        return sum(it.verdict.is_decided for it in self.bays)


def counted(word: Optional[bytes]) -> Optional[int]:
    return None if word is None else int(word)


def move_of(found: Match[bytes]) -> Move:
    row, tier, to_row, to_tier, take_row, take_tier, name = found.groups()
    container = name.decode("utf-8", "surrogateescape")
    return Move(container, int(row or take_row), int(tier or take_tier), counted(to_row), counted(to_tier))


def bay_of(found: Match[bytes], moves: List[Move]) -> Bay:
    block, bay, optimal, first, none, lower, upper, cause = found.groups()
    if optimal:
        verdict = Verdict(Kind.FIRST if first else Kind.OPTIMAL, int(optimal), int(optimal))
    elif none:
        verdict = Verdict(Kind.NO_PLAN, None, None)
    else:
        verdict = Verdict(Kind.BOUNDS, int(lower), counted(upper))
    return Bay(block.decode(), int(bay), verdict, cause.decode() if cause else None, tuple(moves))


def parse_report(text: bytes) -> Report:
    """The report that `crp solve` wrote. Raises ValueError at the first line that is not as it writes it, or does not count what stands
    above or below it. `crp rewrite` and `crp audit` say more of a report that somebody edited."""
    lines = text.split(b"\n")
    bays: List[Bay] = []

    def need(holds: object, line: int) -> None:
        if not holds:
            raise ValueError(f"line {line} is not as crp solve writes it")

    head = ORDERS.fullmatch(lines[0])
    need(head, 1)
    assert head
    at = 1
    while at < len(lines) and (found := BAY.fullmatch(lines[at])):
        start, moves = at, []
        while at + 1 < len(lines) and (move := MOVE.fullmatch(lines[at + 1])):
            moves.append(move_of(move))
            at += 1
        bay = bay_of(found, moves)
        need(bay.relocations == bay.verdict.upper or bay.verdict.upper is None and not moves, start + 1)
        bays.append(bay)
        at += 1
    report = Report(int(head[1]), int(head[2]), int(head[3]), tuple(bays))
    last = LAST.fullmatch(lines[at]) if at < len(lines) else None
    need(last and (int(last[1]), int(last[2])) == (len(bays), report.decided) and lines[at + 1:] == [b""], at + 1)
    return report
