#!/usr/bin/env python3
"""Writes the sample files of this folder: python3 samples/make.py
Or puts PMN files together to an alley file: python3 samples/make.py ALLEY FILE ..

Each sample is a PMN file, version 1 or with margins version 2, of a mask that a mechanic would recognise. A gate is a list of feeds
(signal, weight) and a threshold; inputs have the signals 0 to inputs - 1, and gates follow in order.
"""
import os
import struct
import sys

HERE = os.path.dirname(os.path.abspath(__file__))


class Mask:
    def __init__(self, inputs):
        self.inputs = inputs
        self.gates = []

    def gate(self, feeds, threshold):
        """Adds a gate and returns its signal."""
        self.gates.append((sorted(feeds), threshold))
        return self.inputs + len(self.gates) - 1

    def at_least(self, count, signals):
        """A vote: 1 if at least count of the signals are 1."""
        return self.gate([(s, 1) for s in signals], count)

    def write(self, name, outputs, on=None, off=None):
        """Writes the file, of version 2 where margins are given."""
        version = struct.pack("<H", 1) if off is None else struct.pack("<HBB", 2, on, off)
        data = b"PMN" + version + bytes([self.inputs, len(self.gates), len(outputs)])
        for feeds, threshold in self.gates:
            data += struct.pack("<Bi", len(feeds), threshold)
            for signal, weight in feeds:
                data += struct.pack("<Bi", signal, weight)
        data += bytes(outputs)
        with open(os.path.join(HERE, name), "wb") as file:
            file.write(data)
        print(f"{name}: {len(data)} bytes, {len(self.gates)} gates")


def f():
    """File F of the paper: two patches that outweigh a limit, and a third beside them."""
    mask = Mask(3)
    u = mask.gate([(0, 4), (1, 3)], 5)
    v = mask.gate([(2, 1), (u, 2)], 3)
    mask.write("f.pmn", [v])


def full_rack():
    """Ten pins of four patches each: a pin stands if its two upper patches are both lit, or one of them with both lower ones."""
    mask = Mask(40)
    pins = []
    for pin in range(10):
        upper, lower = [4 * pin, 4 * pin + 1], [4 * pin + 2, 4 * pin + 3]
        foot = mask.at_least(2, lower)
        pins.append(mask.gate([(upper[0], 1), (upper[1], 1), (foot, 1)], 2))
    mask.write("full_rack.pmn", pins)


def corner_pin():
    """One corner pin of eight patches, with a shadow that votes against: the shadow's gate folds, those of head and body do not."""
    mask = Mask(8)
    head = mask.at_least(2, [0, 1, 2])
    body = mask.at_least(2, [3, 4, 5])
    shadow = mask.at_least(2, [6, 7])
    pin = mask.gate([(head, 2), (body, 2), (shadow, -1)], 2)
    mask.write("corner_pin.pmn", [pin])


def shadow_rack():
    """Ten pins of four patches each: a lit foot votes against the pin's shadow, and the shadow against the pin. A pin stands if its two
    upper patches are both lit, or one of them without a shadow."""
    mask = Mask(40)
    pins = []
    for pin in range(10):
        upper, lower = [4 * pin, 4 * pin + 1], [4 * pin + 2, 4 * pin + 3]
        foot = mask.at_least(1, lower)
        shadow = mask.gate([(foot, -1)], 0)
        pins.append(mask.gate([(upper[0], 1), (upper[1], 1), (shadow, -1)], 1))
    mask.write("shadow_rack.pmn", pins)


def strapped_pin():
    """Three pins under repair: the middle one, whose patches are dark, is strapped to standing, and its neighbour counts it as a lit patch.
    The strap needs no stage, so the boards clock one and not two."""
    mask = Mask(4)
    left = mask.at_least(2, [0, 1])
    strapped = mask.at_least(0, [])
    right = mask.at_least(2, [2, 3, strapped])
    mask.write("strapped_pin.pmn", [left, strapped, right])


def far_fold():
    """A chain in which every gate asks for one patch more: it folds into a single gate."""
    mask = Mask(13)
    signal = mask.at_least(2, [0, 1])
    for patch in range(2, 13):
        signal = mask.at_least(2, [signal, patch])
    mask.write("far_fold.pmn", [signal])


def no_fold():
    """Exactly one of two patches, four times over: no gate of it can be folded into its reader."""
    mask = Mask(8)
    outputs = []
    for pair in range(4):
        a, b = 2 * pair, 2 * pair + 1
        both = mask.at_least(2, [a, b])
        outputs.append(mask.gate([(a, 1), (b, 1), (both, -2)], 1))
    mask.write("no_fold.pmn", outputs)


def tolerant_rack():
    """The full rack on boards that drift: every vote weighs ten, and thresholds leave 2 to the sums that reach them and 8 to the others.
    The margins are 2 and 4, which the folded gates keep too: it folds as the full rack does."""
    mask = Mask(40)
    pins = []
    for pin in range(10):
        upper, lower = [4 * pin, 4 * pin + 1], [4 * pin + 2, 4 * pin + 3]
        foot = mask.gate([(patch, 10) for patch in lower], 18)
        pins.append(mask.gate([(upper[0], 10), (upper[1], 10), (foot, 10)], 18))
    mask.write("tolerant_rack.pmn", pins, on=2, off=4)


def strict_pin():
    """A pin with the votes of file F, 25 times as heavy, on a board with margins of 8 and 17. Without margins its two gates fold as F's do,
    into one that has a sum 1 below its threshold; no multipliers up to 32 take that sum 17 below it, so with them nothing folds."""
    mask = Mask(3)
    u = mask.gate([(0, 100), (1, 75)], 125)
    v = mask.gate([(2, 25), (u, 50)], 67)
    mask.write("strict_pin.pmn", [v], on=8, off=17)


def read(name):
    with open(name, "rb") as file:
        return file.read()


def alley(name, lanes):
    """An alley file: each lane is a 16-bit little-endian length and its file."""
    data = b"".join(struct.pack("<H", len(lane)) + lane for lane in lanes)
    with open(name, "wb") as file:
        file.write(data)
    print(f"{os.path.basename(name)}: {len(data)} bytes, {len(lanes)} lanes")


def six_lanes():
    """An alley of six lanes: the third has a corner pin's mask that was cut off when it was copied, the fifth a file that is no mask."""
    rack, shadows, corner = (read(os.path.join(HERE, f"{mask}.pmn")) for mask in ("full_rack", "shadow_rack", "corner_pin"))
    alley(os.path.join(HERE, "six_lanes.alley"), [rack, shadows, corner[:-9], rack, b"lane 5: see the workshop", corner])


if __name__ == "__main__":
    if len(sys.argv) > 2:
        alley(sys.argv[1], [read(name) for name in sys.argv[2:]])
    else:
        for sample in (f, full_rack, corner_pin, shadow_rack, strapped_pin, far_fold, no_fold, tolerant_rack, strict_pin, six_lanes):
            sample()
