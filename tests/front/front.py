#!/usr/bin/env python3
"""front.py ROOM: tries the front that the command FRONT runs, in a folder where the reference's cases lie in made/; see run."""
import sys

from calls import Tally, front_of_caller
from objects import try_objects
from printed import try_printed
from readme import try_readme
from report import try_report
from stl import try_stl
from use import try_use

tally = Tally('front')
front = front_of_caller(tally)
for part in (try_printed, try_use, try_objects, try_report, try_stl, try_readme):
    before = tally.tried, tally.wrong
    part(front, tally, sys.argv[1])
    print(f'front: {part.__name__[4:]}: {tally.tried - before[0]} tried, {tally.wrong - before[1]} wrong', flush=True)
sys.exit(tally.end())
