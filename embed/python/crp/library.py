"""The calls of libcrp, as embed/crp.h declares them. The library is the file that the variable CRP_LIBRARY names, or else the libcrp.so
that the system finds."""
from __future__ import annotations

import ctypes
import functools
import os
import re
from ctypes import POINTER, byref, c_char, c_char_p, c_size_t, c_uint8, c_uint16, c_uint32, c_uint64
from dataclasses import dataclass
from typing import Any, Iterable, List, Optional, Sequence, Tuple

from .verdict import Kind, Verdict

# CRP_VERSION of the header that is read here.
VERSION = 1000

DONE, MEMORY = 0, 1
NONE = 0xFFFFFFFF
MOST_OF_A_PLAN = 672


class Known(ctypes.Structure):
    _fields_ = [("kind", c_uint32), ("lower", c_uint32), ("upper", c_uint32)]


class Fault(ctypes.Structure):
    _fields_ = [("number", c_uint32), ("place", c_uint64)]


class Checked(ctypes.Structure):
    _fields_ = [("known", Known), ("fault", Fault)]


class Search(ctypes.Structure):
    _fields_ = [("budget", c_uint64), ("beam", c_uint32), ("thin", c_uint32), ("flags", c_uint32)]


class Answered(ctypes.Structure):
    _fields_ = [("known", Known), ("cause", c_uint32), ("expanded", c_uint64), ("plan_size", c_size_t), ("certificate_size", c_size_t)]


BYTES: List[Any] = [c_char_p, c_size_t]
BUFFER: List[Any] = [POINTER(c_char), c_size_t]

# The number that crp_solve returns, in words.
REFUSALS = {
    4: ("bay", "the block is not 1 to 17 characters from 0x21 to 0x7E, or the bay not 1 to 9999"),
    11: ("P1", "no rows, more than 12, or not as many heights as rows"),
    12: ("P2", "a height that is not 1 to 8"),
    13: ("P3", "more containers in a row than its height"),
    14: ("P4", "the ranks are not those from 1 to the number of containers, each once"),
    15: ("P5", "more containers are to leave than there are"),
    22: ("S2", "a budget above 1099511627776"),
    27: ("S7", "a beam above 10000"),
    29: ("S9", "thinned branches above 1000000"),
}


class Refused(ValueError):
    """Why a bay is not solved (P1 to P5, S2, S7, S9, or `bay` for its name), or a certificate refused (C1 to C11, K1 to K8), as
    docs/FORMATS.md has the codes. The place is the line of a C, the step of the plan of K2, the symbol of its part of K3, K4 and K8, or 0."""

    def __init__(self, code: str, place: int, words: str) -> None:
        super().__init__(words)
        self.code, self.place = code, place


@dataclass(frozen=True)
class Answer:
    """What the solver answers."""

    verdict: Verdict
    cause: Optional[str]
    """Why the search ended where the bay is not decided: `budget` or `memory`."""
    plan: Optional[Tuple[int, ...]]
    """The rows, from 1, that the relocations go to, in order, if a plan is known."""
    certificate: bytes
    """What shows it; `check` accepts it, and so does `crp check`."""
    expanded: int
    """How many positions were expanded to find the fewest relocations."""


@functools.lru_cache(maxsize=None)
def library() -> ctypes.CDLL:
    found = ctypes.CDLL(os.environ.get("CRP_LIBRARY", "libcrp.so"))
    found.crp_version.restype = found.crp_check.restype = found.crp_solve.restype = c_uint32
    if found.crp_version() != VERSION:
        raise ImportError(f"libcrp has the version {found.crp_version()}, and this package is for {VERSION}")
    found.crp_check.argtypes = [*BYTES, POINTER(Checked)]
    found.crp_solve.argtypes = [*BYTES * 3, c_uint8, *BYTES, c_uint16, POINTER(Search), *BUFFER * 2, POINTER(Answered)]
    return found


def version() -> str:
    number = library().crp_version()
    return f"{number // 1_000_000}.{number // 1000 % 1000}.{number % 1000}"


def numbers(name: str, given: Iterable[int]) -> bytes:
    return bytes(number(f"each of {name}", it, 8) for it in given)


def number(name: str, given: int, bits: int) -> int:
    """A number that C has room for; whether it may be asked, the library says."""
    if not 0 <= given < 1 << bits:
        raise ValueError(f"{name} must be a number from 0 to {(1 << bits) - 1}, and is {given}")
    return given


def verdict_of(known: Known) -> Verdict:
    kind, lower, upper = Kind(known.kind), known.lower, known.upper
    return Verdict(kind, None if lower == NONE else lower, None if upper == NONE else upper)


def solve_bay(
    heights: Sequence[int],
    rows: Sequence[Sequence[int]],
    ordered: int,
    *,
    budget: int = 1_000_000,
    beam: int = 0,
    thin: int = 0,
    first: bool = False,
    deepen: bool = False,
    chains: bool = False,
    block: str = "A",
    bay: int = 1,
    room: int = 1 << 20,
) -> Answer:
    """Solves one bay, in the thread of the caller. `heights` says how many containers may stand in each row, `rows` has the ranks of those
    that stand there, from the ground up; rank 1 leaves first, and the ranks 1 to `ordered` leave. The search expands at most `budget`
    positions; `beam`, `thin`, `first`, `deepen` and `chains` are those of `crp prove`. `block` and `bay` name the bay in the certificate.
    Where that has more than `room` bytes, the search is made a second time. Raises Refused, and MemoryError where no memory is left."""
    counts, ranks = numbers("counts", map(len, rows)), numbers("ranks", (it for row in rows for it in row))
    sizes, name = numbers("heights", heights), block.encode("ascii")
    search = Search(number("budget", budget, 64), number("beam", beam, 32), number("thin", thin, 32), bool(first) + 2 * bool(deepen) + 4 * bool(chains))
    ordered, bay = number("ordered", ordered, 8), number("bay", bay, 16)
    plan, answered = ctypes.create_string_buffer(MOST_OF_A_PLAN), Answered()
    while True:
        text = ctypes.create_string_buffer(room)
        status = library().crp_solve(
            sizes, len(sizes), counts, len(counts), ranks, len(ranks), ordered, name, len(name), bay, byref(search),
            plan, len(plan), text, room, byref(answered),
        )
        if status == MEMORY:
            raise MemoryError("crp_solve")
        if status != DONE:
            code, words = REFUSALS[status]
            raise Refused(code, 0, f"{code}: {words}")
        if answered.certificate_size <= room:
            break
        room = answered.certificate_size
    verdict = verdict_of(answered.known)
    return Answer(
        verdict=verdict,
        cause=[None, "budget", "memory"][answered.cause],
        plan=None if verdict.upper is None else tuple(plan.raw[: answered.plan_size]),
        certificate=ctypes.string_at(text, answered.certificate_size),
        expanded=answered.expanded,
    )


def check(certificate: bytes) -> Verdict:
    """Checks one certificate, from its first line to the LF of its last one, whoever made it: what it shows of the bay that it states.
    Raises Refused with its first fault, and MemoryError where no memory is left."""
    checked = Checked()
    status = library().crp_check(certificate, len(certificate), byref(checked))
    if status == DONE:
        return verdict_of(checked.known)
    if status == MEMORY:
        raise MemoryError("crp_check")
    found, place = checked.fault.number, checked.fault.place
    code = f"C{found}" if found < 100 else f"K{found - 100}"
    what = "line" if found < 100 else "step" if code == "K2" else "symbol"
    raise Refused(code, place, f"{code} at {what} {place}" if place else code)


def certificates(file: bytes) -> List[bytes]:
    """The certificates of a file, one after the other: each ends with its first line that begins with `end `."""
    ends = [0, *(it.end() for it in re.finditer(rb"^end [^\n]*\n", file, re.MULTILINE))]
    return [it for it in (file[a:b] for a, b in zip(ends, [*ends[1:], len(file)])) if it]
