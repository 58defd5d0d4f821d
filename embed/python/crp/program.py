"""The program `crp`, run over a whole yard."""
from __future__ import annotations

import os
import subprocess
from dataclasses import dataclass
from numbers import Integral, Real
from typing import Any, Dict, List, Sequence, Tuple, Union

from .report import Report, parse_report

Value = Union[str, int, float, "os.PathLike[str]"]

# The options of `crp solve`, by what they take besides a text.
KINDS: Dict[str, Any] = {
    **dict.fromkeys(("first", "deepen", "chains", "strong", "quiet", "progress"), bool),
    **dict.fromkeys(("rows", "tiers", "workers", "budget", "split", "beam", "thin"), Integral),
    **dict.fromkeys(("seconds", "total_seconds"), Real),
    **dict.fromkeys(("heights", "separator", "order", "code", "message", "bay"), ()),
    **dict.fromkeys(("sizes", "stop", "cert", "after"), os.PathLike),
}
REPEATED = ("message", "bay")


@dataclass(frozen=True)
class Run:
    """What a run wrote, what it noted, and its exit status: 0 where each bay is decided, 1 where a budget or a limit of time ended before,
    4 where memory did."""

    report: Report
    notes: Tuple[str, ...]
    status: int


class Failed(Exception):
    """A run that wrote no whole report. `fault` is the code with its place, as `Y2 at record 4`; the text is all that it said."""

    def __init__(self, status: int, fault: str, said: str) -> None:
        super().__init__(said)
        self.status, self.fault = status, fault


def word(name: str, value: Any) -> str:
    """The value of an option, as the command line has it."""
    if isinstance(value, bool) or not isinstance(value, (str, KINDS[name])):
        raise TypeError(f"{name} cannot be {value!r}")
    if isinstance(value, Real) and not value >= 0:
        raise ValueError(f"{name} cannot be {value}")
    if isinstance(value, Real) and KINDS[name] is Real:
        return f"{float(value):.3f}"
    return os.fsdecode(value) if isinstance(value, os.PathLike) else str(value)


def words_of(name: str, value: Any) -> List[str]:
    """The words of an option; none where it is None."""
    if name not in KINDS and name != "json":
        raise TypeError(f"crp solve has no option {name}")
    if value is None:
        return []
    flag = "--" + name.replace("_", "-")
    if name == "json" or KINDS[name] is bool:
        if not isinstance(value, bool):
            raise TypeError(f"{name} is True or False, and not {value!r}")
        if name == "json" and value:
            raise ValueError("run reads the report as text: json cannot be True")
        return [flag] * value
    if name not in REPEATED or not isinstance(value, (list, tuple)):
        return [f"{flag}={word(name, value)}"]
    if not value:
        raise ValueError(f"{name} is an empty list; None is for all")
    return [f"{flag}={word(name, it)}" for it in value]


def run(
    yard: Union[str, "os.PathLike[str]"],
    movins: Union[str, "os.PathLike[str]"],
    *,
    program: str = "crp",
    **options: Union[Value, bool, Sequence[str], None],
) -> Run:
    """Runs `crp solve` over a yard list and a load message. `program` is the path of the program. The options are those of `crp solve`, but for
    `--json`: `budget=1000` is `--budget 1000`, `total_seconds=2.5` is `--total-seconds 2.5`, `first=True` is `--first`,
    `bay=["A 1", "B 7"]` is `--bay 'A 1' --bay 'B 7'`, and one that is None is not given. Raises TypeError or ValueError at another option and at
    a value that an option cannot have, before anything is run, and Failed where no whole report was written."""
    words = [program, "solve", *(it for name, value in options.items() for it in words_of(name, value))]
    words += ["--", os.fspath(yard), os.fspath(movins)]
    made = subprocess.run(words, stdin=subprocess.DEVNULL, capture_output=True, check=False)
    said = made.stderr.decode("utf-8", "surrogateescape")
    lines = [it[len("crp: "):] for it in said.split("\n") if it.startswith("crp: ")]
    notes = tuple(it[len("note: "):] for it in lines if it.startswith("note: "))
    if made.returncode in (0, 1, 4):
        try:
            return Run(parse_report(made.stdout), notes, made.returncode)
        except ValueError:
            if made.returncode != 4:
                raise
    faults = [it for it in lines if not it.startswith(("note: ", "bay "))]
    raise Failed(made.returncode, faults[0] if faults else "", said)
