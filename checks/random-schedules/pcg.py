#!/usr/bin/env python3
"""Schedules drawn at random, written independently from the published description of PCG32 and from docs/FORMATS.md.

    pcg.py SEED EVENTS REPLICAS WORKERS

PCG32 is PCG-XSH-RR 64/32 of O'Neill, "PCG: a family of simple fast space-efficient statistically good algorithms for
random number generation" (2014). It shares no code with warmplay.
"""
import sys

MASK_64 = (1 << 64) - 1
MASK_32 = (1 << 32) - 1

# The first words of the state 42 in the stream 54, as the generator's author prints them.
PUBLISHED = [0xA15C02B7, 0x7B47F409, 0xBA1D3330, 0x83D2F293, 0xBFA4784B, 0xCBED606E]


class Pcg32:
    def __init__(self, state, stream):
        self.increment = (stream << 1 | 1) & MASK_64
        self.state = 0
        self.word()
        self.state = (self.state + state) & MASK_64
        self.word()

    def word(self):
        old = self.state
        self.state = (old * 6364136223846793005 + self.increment) & MASK_64
        shifted = ((old >> 18 ^ old) >> 27) & MASK_32
        turn = old >> 59
        return (shifted >> turn | shifted << (-turn & 31)) & MASK_32


def schedule(seed, events, replicas, workers):
    word = Pcg32(seed, 1).word
    sends = 0
    for number in range(1, events + 1):
        kind = word() % 8
        replica = 1 + word() % replicas
        if kind < 4:
            worker = 1 + word() % workers
            yield f"ref {replica} {worker} 0:{word() % 256} {number}"
        elif kind == 4:
            yield f"flush {replica} {1 + word() % workers}"
        elif kind == 5:
            yield f"send {replica} {word() % 64}"
            sends += 1
        elif kind == 6:
            yield f"deliver {replica} {1 + word() % (sends + 1)}"
        else:
            yield f"show {replica}"


def main():
    published = Pcg32(42, 54)
    assert [published.word() for _ in PUBLISHED] == PUBLISHED
    for line in schedule(*map(int, sys.argv[1:5])):
        print(line)


if __name__ == "__main__":
    main()
