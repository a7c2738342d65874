#!/usr/bin/env python3
"""hsl.py COMMAND..: holds a program that speaks the line protocol to CSS Color 3's algorithm for hsl() (section 4.2.4), at every whole degree and whole percent.

The algorithm is worked out over whole numbers: hues are 360ths of the circle, saturation and lightness hundredths, m1 and m2 10,000ths and a channel 600,000ths of the whole.
It says how many channels lie more than a half of 1/255 off, how many lie exactly at the half, and which way those fall. Exit status 1 where any lies farther off, or is no colour."""
import subprocess
import sys

from examples import exact_hsl

WHOLE = 600000


def channel(m1, m2, h):
    """"HOW TO RETURN hue.to.rgb(m1, m2, h)" """
    if h < 0:
        h += 360
    if h > 360:
        h -= 360
    if h * 6 < 360:
        return 60 * m1 + (m2 - m1) * h
    if h * 2 < 360:
        return 60 * m2
    if h * 3 < 2 * 360:
        return 60 * m1 + (m2 - m1) * (240 - h)
    return 60 * m1


def exact(h, s, l):
    """"HOW TO RETURN hsl.to.rgb(h, s, l)", each channel in 600,000ths"""
    m2 = l * (s + 100) if l <= 50 else 100 * (l + s) - l * s
    m1 = 200 * l - m2
    return channel(m1, m2, h + 120), channel(m1, m2, h), channel(m1, m2, h - 120)


def colours(hue):
    return [(hue, s, l) for s in range(101) for l in range(101)]


def answers(command, listed):
    """The red, green and blue of each; none where it is refused or not opaque."""
    lines = "".join(f"color {f'hsl({h},{s}%,{l}%)'.encode().hex()}\n" for h, s, l in listed)
    out = subprocess.run(command, input=lines, capture_output=True, text=True, check=True).stdout.splitlines()
    for line in out:
        words = line.split(" ")
        yield tuple(map(int, words[6:9])) if words[:6] == ["0", "0", "0", "0", "0", "-"] and words[9:] == ["255"] else None


def main(command):
    for h, s, l in colours(77)[::97]:
        assert [255 * x for x in exact(h, s, l)] == [WHOLE * x for x in exact_hsl(h, s, l)]
    total = beyond = up = down = 0
    for hue in range(360):
        listed = colours(hue)
        total += len(listed)
        for (h, s, l), got in zip(listed, answers(command, listed), strict=True):
            # twice the distance, in 255ths of a 600,000th
            off = [2 * (WHOLE * c - 255 * x) for c, x in zip(got, exact(h, s, l))] if got else [2 * WHOLE] * 3
            up += off.count(WHOLE)
            down += off.count(-WHOLE)
            far = sum(abs(d) > WHOLE for d in off)
            if far and beyond < 10:
                print(f"hsl({h},{s}%,{l}%) {got}, exactly {[255 * x / WHOLE for x in exact(h, s, l)]}")
            beyond += far
    print(f"{total} colours, {3 * total} channels: {beyond} beyond a half, {up + down} at the half, of these {up} up and {down} down")
    return 1 if beyond else 0


if __name__ == "__main__":
    if len(sys.argv) < 2:
        sys.exit("usage: hsl.py COMMAND..")
    sys.exit(main(sys.argv[1:]))
