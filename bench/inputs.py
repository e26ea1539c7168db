#!/usr/bin/env python3
"""Writes the benchmark's inputs to a directory: python3 inputs.py DIRECTORY

Each input is exactly 65,536 bytes long, legal to its end, and the same in every run:

units.bin   16 units and 255 messages, a small pattern
states.bin  8 units and 64 messages, a pattern of 64 states and 63 labels, large state sets
single.bin  one unit that only marks, the small pattern
wide.bin    16 units and 255 messages, a pattern of 64 states and 64 labels, large state sets
"""

import os
import sys

LENGTH = 65_536
END, SEND, RECEIVE, MARK, MAKE = 0x00, 0x01, 0x02, 0x03, 0x10

SMALL_PATTERN = bytes.fromhex(
    "20 05 03 00 08 00 00 00 00 00 00 00 04 01 04 02 01 04 02 01 03 04 01 04 04 04 04"
)
SMALL_RELABELLING = bytes([0x30, 4, 1, 2, 0, 1])
# The small pattern starts with its label 1 and falls into a trap soon after its label 2, so
# recordings over it start with a label for 1 and use the label for 2 only near their end.
SMALL_ONES, SMALL_ZERO, SMALL_TWO = (0, 3), 2, 1


class Random:
    """A 64-bit linear congruential generator; its upper bits are used."""

    def __init__(self, seed):
        self.state = seed

    def below(self, n):
        self.state = (self.state * 6364136223846793005 + 1442695040888963407) % 2**64
        return (self.state >> 33) % n

    def shuffled(self, items):
        items = list(items)
        for i in range(len(items) - 1, 0, -1):
            j = self.below(i + 1)
            items[i], items[j] = items[j], items[i]
        return items


def large_pattern(random, labels):
    """64 states. Under most labels no two states go to the same one, so that a set keeps its size
    from mark to mark; under the last label some states go where another state goes too."""
    columns = []
    for label in range(labels):
        column = random.shuffled(range(64))
        if label == labels - 1:
            for _ in range(4):
                column[random.below(64)] = column[random.below(64)]
        columns.append(column)
    finals = sum(1 << q for q in range(64) if random.below(4) < 3)
    table = bytes(column[q] for q in range(64) for column in columns)
    return bytes([0x20, 64, labels, random.below(64)]) + finals.to_bytes(8, "little") + table


def large_relabelling(random, count, labels):
    entries = random.shuffled(range(labels))[:count]
    while len(entries) < count:
        entries.append(random.below(labels))
    return bytes([0x30, count, *entries])


def small_label(random, done, first):
    """A label of the small relabelling, `done` (0 to 1) of the way through the recording."""
    if first:
        return SMALL_ONES[random.below(2)]
    if done > 0.9 and random.below(64) == 0:
        return SMALL_TWO
    return (*SMALL_ONES, SMALL_ZERO)[random.below(3)]


def recording(random, size, units, messages, label, spread, together):
    """A recording of `size` bytes. The sends and receives lie in its first part, up to `spread`
    (0 to 1), and those of `together` successive messages lie mixed; all other commands are marks.
    `label` chooses the label of a mark."""
    commands = (size - 1 - 3) // 3
    assert 3 + 3 * commands + 1 == size, "commands have three bytes"
    # The places of the exchanges: each message has two, the first to send, the second to receive.
    places = sorted(random.shuffled(range(units, int(commands * spread)))[: 2 * messages])
    message_at = {}
    for i in range(0, 2 * messages, 2 * together):
        for j, place in enumerate(random.shuffled(places[i : i + 2 * together])):
            message_at[place] = i // 2 + j // 2
    sender = {}
    marked = set()
    out = bytearray([MAKE, units, messages])
    for i in range(commands):
        if i in message_at:
            m = message_at[i]
            if m not in sender:
                sender[m] = random.below(units)
                out += bytes([SEND, sender[m], m])
            else:
                to = (sender[m] + 1 + random.below(units - 1)) % units
                out += bytes([RECEIVE, to, m])
        else:
            u = i if i < units else random.below(units)
            out += bytes([MARK, u, label(random, i / commands, u not in marked)])
            marked.add(u)
    out.append(END)
    return bytes(out)


def small(seed, units, messages):
    head = SMALL_PATTERN + SMALL_RELABELLING
    size = LENGTH - len(head)
    return head + recording(Random(seed), size, units, messages, small_label, spread=1, together=32)


def large(seed, labels, count, units, messages, spread, together):
    random = Random(seed)
    head = large_pattern(random, labels) + large_relabelling(random, count, labels)
    size = LENGTH - len(head)
    label = lambda random, done, first: random.below(count)
    return head + recording(random, size, units, messages, label, spread, together)


def main():
    directory = sys.argv[1]
    inputs = {
        "units.bin": small(1, units=16, messages=255),
        "states.bin": large(2, 63, 64, units=8, messages=64, spread=0.125, together=4),
        "single.bin": small(3, units=1, messages=0),
        "wide.bin": large(4, 64, 63, units=16, messages=255, spread=1, together=32),
    }
    for name, data in inputs.items():
        assert len(data) == LENGTH and data[-1] == END
        with open(os.path.join(directory, name), "wb") as file:
            file.write(data)


main()
