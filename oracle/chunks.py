#!/usr/bin/env python3
# The requests on chunks, and on their lines: real ones, real ones with damage, and made ones for every rule, refusal and limit.
# Nothing here depends on the day or the machine: the random numbers have fixed seeds, and the real chunks are kept in samples/compiled.txt.
import random
import sys

sys.dont_write_bytecode = True

from kept import bounds, copies, damage, fields, lines, nesting, overflow, padded, real, stops, synthetic, validation
from kept.ask import Requests

GROUPS = (
    real.samples, real.truncations, real.other_limits,
    fields.numbers_in_turn, fields.others_in_turn, fields.header, fields.number_values, fields.tags, fields.constants,
    bounds.at_each, bounds.ceilings, bounds.input_lengths, bounds.counts, bounds.strings,
    nesting.depths, nesting.totals, nesting.first_of_two, nesting.totals_of_code, overflow.overflow,
    copies.names, copies.sources, copies.header_bytes, copies.lengths, padded.smallest, padded.every_kind, padded.values,
    lines.worked, lines.anchors, lines.as_many, lines.marks, lines.huge, lines.functions, lines.pcs,
    validation.stacks, validation.opcodes, validation.indices, validation.both, validation.jumps, validation.families, stops.kept, stops.verdicts,
    damage.every_byte,
)

requests = Requests()
for group in GROUPS:
    group(requests)
copies.padded(requests, random.Random(1))
damage.random_damage(requests, random.Random(2), 850)
lines.random_lines(requests, random.Random(3), 400)
validation.random_words(requests, random.Random(4), 120)
synthetic.random_chunks(requests, random.Random(5), 700)
requests.show()
