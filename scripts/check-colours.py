#!/usr/bin/env python3
"""Measures the colours of the pictures, crates/run_pictures/src/style.rt, as people with usual sight and with each of the three
kinds of colour blindness see them, on the light scheme and on the dark one.

Of each group of colours that have to be told apart any two lie at least so far from each other (CIEDE2000), and what stands on
something has at least so much contrast with it (WCAG). A line for each that fails; the last line is `N passed, M failed`, and the
status is 1 where one fails. With --tell it prints the least distance and contrast of each group.

Colour blindness is simulated by the matrices of Machado, Oliveira and Fernandes (2009) for its full extent, on linear sRGB."""
import math
import pathlib
import re
import sys

STYLE = pathlib.Path(__file__).resolve().parent.parent / "crates/run_pictures/src/style.rt"

SIGHTS = {
    "usual": ((1, 0, 0), (0, 1, 0), (0, 0, 1)),
    "protanopia": ((0.152286, 1.052583, -0.204868), (0.114503, 0.786281, 0.099216), (-0.003882, -0.048116, 1.051998)),
    "deuteranopia": ((0.367322, 0.860646, -0.227968), (0.280085, 0.672501, 0.047413), (-0.011820, 0.042940, 0.968881)),
    "tritanopia": ((1.255528, -0.076749, -0.178779), (-0.078411, 0.930809, 0.147602), (0.004733, 0.691367, 0.303900)),
}

TASKS = [f"c{k}" for k in range(8)]
BARS = TASKS + ["i"]

# Colours that have to be told apart: their classes, and how far they lie apart at least.
APART = [
    ("bars of tasks", BARS, 12),
    ("bars of tasks and of queues", BARS + ["q"], 10),
    ("lines of a core", ["d", "h"], 20),
    ("lines of a task", ["w", "u", "e"], 9),
    ("marks", ["x", "n"], 20),
    ("ticks", ["t", "v"], 8),
]
# What stands on what: the classes, those below them, and the least contrast.
ON = [
    ("words on the ground", ["text", "s"], ["b"], 4.5),
    ("words on bars", ["l"], BARS + ["t", "v", "q"], 4.5),
    ("lines on the ground", ["w", "u", "e", "m", "y"], ["b"], 3),
    ("bars of queues on the ground", ["q"], ["b"], 3),
    ("marks on the ground", ["x", "n"], ["b"], 3),
    ("lines on bars", ["d", "h"], BARS, 2),
]


def rules_in(text):
    """Of each class (or element) the colour of its fill or, where it has none, of its stroke."""
    colours = {}
    for names, body in re.findall(r"([.\w,]+)\{([^{}]*)\}", text):
        found = dict(re.findall(r"(fill|stroke):(#[0-9a-f]+)", body))
        if found:
            for name in names.split(","):
                colours[name.lstrip(".")] = found.get("fill", found.get("stroke"))
    return colours


def schemes():
    styles = (text.replace("\\\n", "") for text in re.findall(r"<style>(.*?)</style>", STYLE.read_text(), re.S))
    light, dark = map("".join, zip(*(style.partition("@media(prefers-color-scheme:dark){")[::2] for style in styles)))
    # The bars have a stroke in common, which is no colour of theirs.
    base = rules_in(re.sub(r"\.i,\.c0[^}]*\}", "", light))
    return {"light": base, "dark": {**base, **rules_in(dark)}}


def linear(code):
    digits = code.lstrip("#")
    digits = "".join(d * 2 for d in digits) if len(digits) == 3 else digits
    parts = [int(digits[k : k + 2], 16) / 255 for k in (0, 2, 4)]
    return [c / 12.92 if c <= 0.04045 else ((c + 0.055) / 1.055) ** 2.4 for c in parts]


def seen(code, sight):
    rgb = linear(code)
    return [min(1, max(0, sum(a * b for a, b in zip(row, rgb)))) for row in SIGHTS[sight]]


def luminance(rgb):
    return 0.2126 * rgb[0] + 0.7152 * rgb[1] + 0.0722 * rgb[2]


def contrast(first, second):
    low, high = sorted((luminance(first), luminance(second)))
    return (high + 0.05) / (low + 0.05)


def lab(rgb):
    x = (0.4124564 * rgb[0] + 0.3575761 * rgb[1] + 0.1804375 * rgb[2]) / 0.95047
    y = 0.2126729 * rgb[0] + 0.7151522 * rgb[1] + 0.0721750 * rgb[2]
    z = (0.0193339 * rgb[0] + 0.1191920 * rgb[1] + 0.9503041 * rgb[2]) / 1.08883
    f = [t ** (1 / 3) if t > 216 / 24389 else (24389 / 27 * t + 16) / 116 for t in (x, y, z)]
    return 116 * f[1] - 16, 500 * (f[0] - f[1]), 200 * (f[1] - f[2])


def distance(first, second):
    """CIEDE2000."""
    (l1, a1, b1), (l2, a2, b2) = lab(first), lab(second)
    mean = (math.hypot(a1, b1) + math.hypot(a2, b2)) / 2
    grey = 1.5 - 0.5 * math.sqrt(mean**7 / (mean**7 + 25**7))
    a1, a2 = a1 * grey, a2 * grey
    c1, c2 = math.hypot(a1, b1), math.hypot(a2, b2)
    h1 = math.degrees(math.atan2(b1, a1)) % 360 if c1 else 0
    h2 = math.degrees(math.atan2(b2, a2)) % 360 if c2 else 0
    turn = (h2 - h1 + 180) % 360 - 180 if c1 * c2 else 0
    hue = h1 + h2 if not c1 * c2 else (h1 + h2) / 2 if abs(h1 - h2) <= 180 else ((h1 + h2) / 2 + 180) % 360
    light, chroma = (l1 + l2) / 2, (c1 + c2) / 2
    cos = lambda degrees: math.cos(math.radians(degrees))
    t = 1 - 0.17 * cos(hue - 30) + 0.24 * cos(2 * hue) + 0.32 * cos(3 * hue + 6) - 0.2 * cos(4 * hue - 63)
    by_light = (l2 - l1) / (1 + 0.015 * (light - 50) ** 2 / math.sqrt(20 + (light - 50) ** 2))
    by_chroma = (c2 - c1) / (1 + 0.045 * chroma)
    by_hue = 2 * math.sqrt(c1 * c2) * math.sin(math.radians(turn / 2)) / (1 + 0.015 * chroma * t)
    bend = -2 * math.sqrt(chroma**7 / (chroma**7 + 25**7)) * math.sin(math.radians(60 * math.exp(-(((hue - 275) / 25) ** 2))))
    return math.sqrt(by_light**2 + by_chroma**2 + by_hue**2 + bend * by_chroma * by_hue)


def main():
    tell = sys.argv[1:] == ["--tell"]
    if sys.argv[1:] and not tell:
        print("usage: check-colours.py [--tell]", file=sys.stderr)
        sys.exit(2)
    passed = failed = 0
    for scheme, colours in schemes().items():
        for sight in SIGHTS:
            tries = []
            for name, classes, least in APART:
                pairs = [(a, b) for k, a in enumerate(classes) for b in classes[:k]]
                tries.append((name, "distance", distance, pairs, least))
            for name, above, below, least in ON:
                tries.append((name, "contrast", contrast, [(a, b) for a in above for b in below], least))
            for name, what, measure, pairs, least in tries:
                found = [(measure(seen(colours[a], sight), seen(colours[b], sight)), a, b) for a, b in pairs]
                if tell:
                    value, a, b = min(found)
                    print(f"{scheme:5} {sight:12} {name:20} {what} {value:5.1f} of {a} and {b}, least {least}")
                for value, a, b in found:
                    if value >= least:
                        passed += 1
                    else:
                        failed += 1
                        print(f"WRONG {scheme}, {sight}: {name}: {what} {value:.1f} of {a} and {b}, least {least}")
    print(f"{passed} passed, {failed} failed")
    sys.exit(failed > 0)


main()
