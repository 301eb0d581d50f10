#!/usr/bin/env python3
# The last of the kept requests: the smallest chunk, the 46 bytes of 01, under the ceilings. It is read, and its line is altered on purpose (convert.py).
import sys

sys.dont_write_bytecode = True

from kept.ask import Requests
from kept.build import Function, chunk

requests = Requests()
requests.title("smallest: the 46 bytes of 01")
requests.chunk(chunk(Function()))
requests.show()
