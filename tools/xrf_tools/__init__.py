"""The tools around the program: pictures and sentences of a run, and a checker of scenarios. None of them is proved."""

import sys

# Written so that an older Python reads it.
if sys.version_info < (3, 9):
    sys.exit("xrf: the tools want Python 3.9 or newer, and python3 is " + sys.version.split()[0])
