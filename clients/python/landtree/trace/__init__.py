"""From a real program to the nodes of a policy and a file of checks.

`record` runs a program under strace, with an inventory of the directories that it may change. `convert` reads what was
recorded. It decides nothing about rights: `landtree learn` does that, from the checks.
"""

from .conversion import Converted, convert
from .inputs import files_only_read
from .recording import Recording, record

__all__ = ["Converted", "Recording", "convert", "files_only_read", "record"]
