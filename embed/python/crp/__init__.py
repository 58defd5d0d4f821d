"""crp in Python: bays of a container yard are solved with the fewest relocations, certificates of that are checked, and the program is
run over a whole yard."""
from .library import Answer, Refused, certificates, check, solve_bay, version
from .program import Failed, Run, run
from .report import Bay, Move, Report, parse_report
from .verdict import Kind, Verdict

__all__ = [
    "Answer", "Bay", "Failed", "Kind", "Move", "Refused", "Report", "Run", "Verdict",
    "certificates", "check", "parse_report", "run", "solve_bay", "version",
]
