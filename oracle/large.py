#!/usr/bin/env python3
# Requests whose answers are too long to be kept: validation that stops, and chunks near the longest request. They are asked on both sides by hand.
import sys

sys.dont_write_bytecode = True

from kept import large, stops
from kept.ask import Requests

requests = Requests()
for group in (stops.incomplete, stops.warnings_alone, stops.what_follows, stops.errors_and_twice,
              large.long_lists, large.long_strings, large.many_functions):
    group(requests)
requests.show()
