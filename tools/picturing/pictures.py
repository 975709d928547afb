"""Which pictures docs/images has; most are made from checks of examples."""

from __future__ import annotations

from pathlib import Path
from typing import Dict

from .arrows import arrows_picture
from .border import border_picture
from .checked import check_example
from .session import model_session
from .sets import sets_picture
from .states import states_picture
from .timeline import timeline_picture
from .windows import windows_picture

TOP = Path(__file__).resolve().parents[2]
IMAGES = TOP / 'docs' / 'images'
EXAMPLES = TOP / 'examples'
# What the tutorial's check.py is given after the store, for first.trace.
PUTS = ('0', 'a=1', 'a=2', 'compact', 'b=3')
# The line of first.trace at which the compaction begins.
COMPACTION = 10
# What recovery makes of the failing state of first.trace.
VERDICT = (
    'Recovery reads /data.log, which is the old log. The row b=3 is on the disk, under the wrong '
    'name: nothing synced the directory after the rename.'
)


def pictures() -> Dict[Path, str]:
    """The text of each picture, by its file; nothing is written. Two checks are run for them, whose
    commands need python3 and sqlite3. All children of this process are ended. Raises what
    check_example() raises, and what the functions `.._picture` raise if an example isn't as the
    words of a picture say."""
    sqlite, tutorial = EXAMPLES / 'sqlite', EXAMPLES / 'tutorial'
    sqlite_check = check_example(str(sqlite / 'full.trace'), [str(sqlite / 'recover.sh')])
    recovery = [str(tutorial / 'check.py'), str(tutorial / 'kv.py'), *PUTS]
    tutorial_check = check_example(str(tutorial / 'first.trace'), recovery)
    session = model_session(tutorial_check, tutorial / 'first.trace')
    return {
        IMAGES / 'sqlite-full.svg': states_picture(sqlite_check),
        IMAGES / 'failing-state.svg': timeline_picture(tutorial_check, COMPACTION, VERDICT),
        IMAGES / 'model.svg': sets_picture(session),
        IMAGES / 'needs.svg': arrows_picture(session),
        IMAGES / 'tools.svg': border_picture(),
        IMAGES / 'windows.svg': windows_picture(),
    }
