"""A second reading of docs/MODEL.md and docs/reference: the states of a trace, and what `list`,
`picks` and `tar` write of them.

Nothing here is proved, and nothing is shared with the program `crashfs`. The tools use it if there
is no program, and for what they need beside the program's answers. The tests compare the two.
"""

from __future__ import annotations

from .faults import ReadingFault
from .plan import StatePlan, make_plan
from .trace import Reading, parse_trace

__all__ = ['Reading', 'ReadingFault', 'StatePlan', 'make_plan', 'parse_trace']
