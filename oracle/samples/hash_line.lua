#!/usr/bin/env lua
print("the first line is passed over")
