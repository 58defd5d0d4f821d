"""What is known of a bay."""
from __future__ import annotations

import enum
from dataclasses import dataclass
from typing import Optional


class Kind(enum.Enum):
    OPTIMAL = 1
    """A plan has `upper` relocations, and none has fewer."""
    NO_PLAN = 2
    """There is no plan."""
    BOUNDS = 3
    """No plan has fewer than `lower` relocations; a plan has `upper`, if that is not None."""
    FIRST = 4
    """As OPTIMAL, and of all plans with as many relocations its destination rows come first."""


@dataclass(frozen=True)
class Verdict:
    """What is known of the fewest relocations of a bay; both numbers are None where there is no plan."""

    kind: Kind
    lower: Optional[int]
    upper: Optional[int]

    @property
    def is_decided(self) -> bool:
        return self.kind is not Kind.BOUNDS

    def __str__(self) -> str:
        """The words of `crp check`."""
        if self.kind is Kind.NO_PLAN:
            return "no plan"
        if self.kind is Kind.BOUNDS:
            return f"at least {self.lower}" + ("" if self.upper is None else f", plan of {self.upper}")
        return f"optimal {self.upper}" + (" first" if self.kind is Kind.FIRST else "")
