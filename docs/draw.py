#!/usr/bin/env python3
"""Draws docs/multiframe.svg, docs/shares.svg, docs/fold.svg, docs/chunks.svg, docs/exchange.svg and docs/superframe.svg.

docs/draw.py            writes all of them
docs/draw.py --check    writes nothing, and fails where a file is not what would be written
"""
import math
import os
import sys

HERE = os.path.dirname(os.path.abspath(__file__))
INK, FIRST, SECOND, WORD, SIGNAL, CHECK, E = "#1f2a33", "#eef4fb", "#fdf3e7", "#dfe9f0", "#e8e1f2", "#b9d3ea", "#fbe49a"
DROP = "#9c3500"
CSS = (
    "text{font:13px Helvetica,Arial,sans-serif;fill:#1f2a33}.s{font-size:12px}.b{font-weight:bold}"
    f"path{{fill:none;stroke:{INK};stroke-width:1.3}}.drop{{stroke:{DROP};stroke-dasharray:5 3}}text.drop{{stroke:none;fill:{DROP}}}"
)


def text(x, y, words, anchor="middle", style=""):
    return f'<text x="{x}" y="{y}" text-anchor="{anchor}" class="{style}">{words}</text>'


def lines(x, y, words, anchor="middle", style="s"):
    """several lines of text, 15 apart"""
    return "".join(text(x, y + 15 * i, line, anchor, style) for i, line in enumerate(words.split("\n")))


def box(x, y, w, h, fill, words="", style=""):
    rect = f'<rect x="{x}" y="{y}" width="{w}" height="{h}" fill="{fill}" stroke="{INK}" stroke-width="0.8"/>'
    return rect + (text(x + w / 2, y + h / 2 + 4.5, words, style=style) if words else "")


def legend(x, y, entries):
    """what each colour means, in a row"""
    parts = []
    for fill, words in entries:
        parts += [box(x, y, 14, 14, fill), text(x + 20, y + 11.5, words, "start", "s")]
        x += 44 + 5.7 * len(words)
    return parts


def arrow(path, style="", tip="tip"):
    return f'<path d="{path}" class="{style}" marker-end="url(#{tip})"/>'


def drop(path):
    return arrow(path, "drop", "droptip")


def page(width, height, parts):
    tips = "".join(
        f'<marker id="{name}" markerWidth="9" markerHeight="9" refX="7" refY="4" orient="auto">'
        f'<path d="M0,0 L8,4 L0,8 z" style="fill:{colour};stroke:none"/></marker>'
        for name, colour in (("tip", INK), ("droptip", DROP))
    )
    head = f'<svg xmlns="http://www.w3.org/2000/svg" viewBox="0 0 {width} {height}" width="{width}" height="{height}">'
    paper = f'<rect width="{width}" height="{height}" fill="#fff"/>'
    return "\n".join([head, f"<style>{CSS}</style><defs>{tips}</defs>", paper, *parts, "</svg>", ""])


def multiframe():
    """slot 0 of sixteen frames, and where each block's check is carried"""
    wide, cell, high, left, top, payload = 74, 38, 24, 220, 66, 200
    right = left + wide + 7 * cell + payload
    edges = [left] + [left + wide + cell * i for i in range(8)]

    def row(f):
        return top + f * high

    def middle(f):
        return row(f) + high // 2

    parts = [text((left + edges[8]) / 2, 26, "slot 0, bits 1 to 8", style="b"), text(right - payload / 2, 26, "slots 1 to 31", style="b")]
    parts += [text((edges[i] + edges[i + 1]) / 2, 54, i + 1, style="s") for i in range(8)]
    for f in range(16):
        tint = FIRST if f < 8 else SECOND
        parts.append(text(84, row(f) + 16.5, f"frame {f}", "end"))
        if f % 2 == 0:
            cells = [(f"C{f // 2 % 4 + 1}", CHECK)] + [(b, WORD) for b in "0011011"]
        else:
            first = ("001011"[f // 2], SIGNAL) if f < 12 else (f"E, block {f // 2 - 5}", E)
            cells = [first, ("1", tint), ("A", tint)] + [(f"Sa{n}", tint) for n in range(4, 9)]
        parts += [box(edges[i], row(f), edges[i + 1] - edges[i], high, fill, words) for i, (words, fill) in enumerate(cells)]
        parts.append(box(edges[8], row(f), payload, high, tint, "31 octets of payload" if f in (0, 8) else ""))
    for b in (0, 1):
        parts.append(box(96, row(8 * b), 60, 8 * high, FIRST if b == 0 else SECOND, f"block {b + 1}"))
    # from the end of a block down to each of the four bits that carry its check
    for start, bits in ((f"M188 {top - 30}", (0, 2, 4, 6)), (f"M156 {middle(7)} H188", (8, 10, 12, 14))):
        parts.append(f'<path d="{start} V{middle(bits[3])}"/>')
        parts += [arrow(f"M188 {middle(f)} H{left - 2}") for f in bits]
    parts.append(arrow(f"M156 {middle(15)} H188 V{row(16) + 22}"))
    for f, words in (
        (0, "C1 to C4 of block 1 carry the check\nof the last block before"),
        (8, "C1 to C4 of block 2 carry the check\nof block 1"),
        (13, "E is 0 where the far end says that it\ngot block 1 errored"),
        (15, "and here block 2"),
    ):
        parts.append(lines(right + 14, row(f) + 16.5, words, "start"))
    low = row(16) + 14
    parts.append(text(200, low + 11.5, "to C1 to C4 of the next multiframe", "start", "s"))
    colours = (CHECK, "check bit, 0 in the division"), (WORD, "alignment word"), (SIGNAL, "multiframe signal"), (E, "E bit")
    parts += legend(450, low, colours)
    return page(right + 236, low + 30, parts)


def share(behind):
    """what a bit adds to the check of E1, by how many bits are behind it"""
    r = 1
    for _ in range(behind + 4):
        r *= 2
        if r > 15:
            r ^= 0b10011
    return r


def shares():
    """the fifteen shares in a ring, and two pairs of hits: one that ends at the same share, one that does not"""
    across, down, wide, high = 240, 190, 84, 40
    x0, y0, cards, here, there = 300, 226, 612, 3, 34

    def at(k, part=1.0):
        """on the ring, or a part of the way to it"""
        angle = math.radians(24 * k - 90)
        return x0 + round(part * across * math.cos(angle)), y0 + round(part * down * math.sin(angle))

    parts = []
    for k in range(15):
        x, y = at(k)
        fill = E if k == here else CHECK if k == there % 15 else FIRST
        parts.append(box(x - wide / 2, y - high / 2, wide, high, fill))
        parts += [text(x, y - 2, f"{share(k):04b}", style="b"), text(x, y + 13, f"{k}, {k + 15}, {k + 30}, ..", style="s")]
    (x, y), (u, v) = at(0.5, 0.68), at(2.5, 0.68)
    parts.append(arrow(f"M{x} {y} A{0.68 * across:.0f} {0.68 * down:.0f} 0 0 1 {u} {v}"))
    parts.append(lines(x0, y0 - 16, "each share, and below it\nhow many bits are behind\nthe bits that have it:\none more, one step on"))
    for y, fill, a, b, name in ((84, E, here, here + 30, "two hits that go unseen"), (246, CHECK, here, there, "two hits that are seen")):
        rounds, over = divmod(b - a, 15)
        sum_ = share(a) ^ share(b)
        parts.append(box(cards, y, 330, 108, "#fff"))
        parts += [box(cards, y, 330, 26, fill, name, "b")]
        turns = f"{b - a} = {rounds} times 15: {rounds} times round, to the same share" if over == 0 else f"{b - a} is no multiple of 15: another share"
        words = f"{a} and {b} bits are behind them\n{turns}\n{share(a):04b} + {share(b):04b} = {sum_:04b}"
        words += "\nthe check stays as it was" if sum_ == 0 else "\nthe check is another, and the block disagrees"
        parts.append(lines(cards + 14, y + 48, words, "start"))
    return page(cards + 350, 2 * y0, parts)


def fold():
    """a block's octets in rows, their sum folded to 15 bits, and the four look-ups that make the check of it"""
    wide, high, left, top = 26, 19, 82, 86
    right, bottom = left + 15 * wide, top + 17 * high
    last = bottom + 26  # the height at which the last octet goes to the third look-up

    def small(x, y, words, anchor="middle"):
        return text(x, y, words, anchor, "s")

    def line(path):
        return f'<path d="{path}"/>'

    def dashed(path):
        return f'<path d="{path}" stroke-dasharray="3 2"/>'

    def bracket(x, to, y, words):
        return line(f"M{x} {y + 7} V{y} H{to} V{y + 7}") + small((x + to) / 2, y - 6, words)

    def strip(x, y, bits):
        return [box(x + 14 * i, y - 8, 14, 16, fill, words, "s") for i, (words, fill) in enumerate(bits)]

    # the rows, and behind each the octet that the second window has besides
    window = left + 8 * wide
    parts = [bracket(left, right, 30, "15 octets, 120 bits")]
    parts += [bracket(x, to, 68, "a window of 64 bits") for x, to in ((left, window - 2), (window + 2, right + wide))]
    for n in range(255):
        row, column = divmod(n, 15)
        fill, words = "#fff" if n % 64 else CHECK, str(n) if n < 30 or n % 64 == 0 or n in (240, 254) else ""
        parts.append(box(left + column * wide, top + row * high, wide, high, fill, words, "s"))
    parts += [small(left - 10, top + row * high + 14, f"row {row}", "end") for row in (0, 1, 16)]
    parts += [dashed(f"M{right} {top + row * high} h{wide}") for row in range(18)] + [dashed(f"M{right + wide} {top} V{bottom}")]
    parts += [line(f"M{right + wide + 5} {top} h6 V{bottom} h-6"), arrow(f"M{right + wide + 11} {top + 6} H610")]
    parts += [small(559, top - 2, "17 rows"), lines(559, top + 24, "added\nwithout carry")]

    # their sum, a bit 4 wide: a strip of paper that gets shorter and thicker
    x, y, deep = 612, top, 12
    parts.append(small(x, 26, "120, 60, 30 and 15 are multiples of 15, and x^15 leaves 1:", "start"))
    parts.append(small(x, 41, "bits that come to lie on each other have the same share", "start"))
    parts += [box(x, y, 240, deep, WORD), box(x + 240, y, 240, deep, SECOND), small(964, y + 36, "folded in the middle", "end")]
    for layers in (1, 2, 4, 8):
        bits, low = 120 // layers, y + deep * layers
        parts.append(text(x, y - 6, f"{bits} bits", "start", "b"))
        if layers > 1:
            parts += [box(x, y + deep * i, 4 * bits, deep, (WORD, SECOND)[i % 2]) for i in range(layers)]
        if layers < 8:
            y = low + 34
            parts.append(dashed(f"M{x + 2 * bits} {low - deep * layers - 5} V{low + 5}"))
            parts.append(arrow(f"M{x + 3 * bits} {low} V{y + deep * layers * 1.5} H{x + 2 * bits + 2}"))

    # the look-ups, each with a remainder from above and an octet from the left
    one, two, three, four = 268, 358, last + 11.5, last + 98
    zero, bit = ("0", "#fff"), ("", WORD)
    parts += [box(872, 164, 220, four - 134, "#f2f0ee"), lines(982, 182, "one table: 16 remainders\nx 256 octets = 4,096 entries")]
    parts += [box(904, y - 20, 156, 40, "#fff", f"look-up {i}", "b") for i, y in enumerate((one, two, three, four), 1)]
    for y in (one, four):
        parts += [small(982, y - 45, "remainder 0"), arrow(f"M982 {y - 40} V{y - 22}")]
    for y, to in ((one, two), (two, three)):
        parts += [arrow(f"M982 {y + 20} V{to - 22}"), lines(990, y + 37, "remainder,\n4 bits", "start")]
    parts += [arrow(f"M852 {y} H902") for y in (one, two, four)]
    # the first and the second octet: the sum
    parts += [line(f"M642 {low} v18 H720 V{one}"), arrow(f"M720 {one} H738"), arrow(f"M720 {two} H738")]
    parts += strip(740, one, [zero] + [bit] * 7) + [small(796, one - 15, "0 and the first 7 bits")]
    parts += strip(740, two, [bit] * 8) + [small(796, two - 15, "the other 8 bits")]
    # the third: the last octet and the check bits
    parts += [small(left - 10, last + 4.5, "last octet", "end"), small(left - 10, last + 27.5, "check bits", "end")]
    parts += [box(left, last - high / 2, wide, high, SIGNAL, "255", "s"), arrow(f"M{left + wide} {last} H738")]
    parts += [box(left, last + 16, 14, 14, CHECK), arrow(f"M{left + 14} {last + 23} H738")]
    parts += strip(740, last, [("", SIGNAL)] * 8) + strip(740, last + 23, [("", CHECK), zero] * 4)
    parts += [small(796, last - 15, "last octet + check bits")] + [small(747 + 28 * i, last + 44, 2 ** (7 - 2 * i)) for i in range(4)]
    parts += [line(f"M852 {last} H868 V{last + 23} H852"), arrow(f"M868 {three} H902")]
    # the fourth: what the third left, and four zeros
    parts += [arrow(f"M916 {three + 20} V{four - 38} H768 V{four - 10}"), small(778, four - 20, "remainder r", "start")]
    parts += [box(740, four - 8, 56, 16, E, "r", "s")] + strip(796, four, [zero] * 4) + [small(796, four + 24, "16r: the four zeros")]
    parts += [arrow(f"M982 {four + 20} v22"), text(914, four + 57.5, "check of the block", "end", "b")]
    parts += [box(926 + 28 * i, four + 44, 28, 18, "#fff", f"C{i + 1}", "s") for i in range(4)]

    for y, words in (
        (44, "the first bits of octets 0, 64, 128 and 192: by fifteens they belong to"),
        (59, "x^7, x^5, x^3 and x, the bits of an octet that are worth 128, 32, 8 and 2;"),
        (74, "they are in the sum already, and added once more they come out: 1 + 1 is 0"),
        (110, "one octet more: where the block begins inside an octet of the image,"),
        (125, "a row lies across 16 of them"),
    ):
        parts.append(small(left + 20, last + y, words, "start"))
    parts.append(dashed(f"M{left} {last + 99} h14 v14 h-14 z"))
    return page(1104, four + 74, parts)


def chunks():
    """a line in three chunks: what is looked at with each, what leaves, and what is held then"""
    left, wide, high = 244, 125, 24
    cuts = (-0.4, 1.7, 4.7, 6.3)  # where chunks begin and end, in multiframes from the start on
    tints = (FIRST, SECOND, FIRST)

    def at(m):
        return left + wide * m

    def strip(y, a, b, fill, words="", style="s"):
        return box(at(a), y, at(b) - at(a), high, fill, words, style)

    def label(y, words):
        return text(at(cuts[0]) - 14, y + 16.5, words, "end", "s")

    parts = [label(20, "chunks"), label(84, "the joined line")]
    parts += [strip(20, cuts[i], cuts[i + 1], tints[i], f"chunk {i + 1}", "b") for i in range(3)]
    parts += [arrow(f"M{at(0)} 64 V82"), text(at(0) + 6, 74, "start", "start", "s"), strip(84, cuts[0], 0, "#f2f0ee")]
    parts += [strip(84, m, min(m + 1, cuts[3]), "#fff", "multiframe 0" if m == 0 else str(m) if m < 6 else "") for m in range(7)]

    def window(y, chunk):
        """what is held with this chunk: all that came, or the last multiframe that left and what came behind it"""
        kept, cut = (None, 3, 5)[chunk], cuts[chunk + 1]
        if kept is None:
            return [strip(y, cuts[0], cut, WORD)]
        return [strip(y, kept, kept + 1, CHECK, str(kept)), strip(y, kept + 1, cut, WORD)]

    for i, leaves in enumerate(((), range(4), range(4, 6))):
        y = 144 + 108 * i
        parts += [text(14, y + 16.5, f"with chunk {i + 1}", "start", "b")]
        parts += [label(y, "is looked at"), label(y + 28, "leaves"), label(y + 56, "is held")]
        parts += (window(y, i - 1) if i else []) + [strip(y, cuts[i], cuts[i + 1], tints[i], f"chunk {i + 1}")]
        parts += [strip(y + 28, m, m + 1, E, str(m)) for m in leaves] + window(y + 56, i)
        parts.append(f'<path d="M{at(cuts[i + 1])} 44 V{y + 56 + high + 8}" stroke-dasharray="3 2"/>')
    parts.append(text(at(cuts[0]), 188.5, "nothing", "start", "s"))
    parts.append(text(at((cuts[0] + cuts[1]) / 2), 216.5, "the last 2,048 octets: here all", style="s"))
    for m, y, words in (
        (1.8, 160.5, "no place stands yet, for lack of 16,384 bits from it on"),
        (4.8, 282.5, "a place stands, and all that\nis whole and used leaves"),
        (cuts[0], 376.5, "3 has left, and is kept: runs of wrong words and\nbits 2 go on from it into 4, and 4 carries the check\nof its last block"),
    ):
        parts.append(lines(at(m), y, words, "start"))

    colours = (
        (E, "leaves: 496 octets of payload and 16 of slot 0"),
        (CHECK, "the last multiframe that left"),
        (WORD, "what came behind it, or all while no place stands"),
    )
    return page(at(cuts[3]) + 30, 496, parts + legend(at(cuts[0]), 466, colours))


def exchange():
    """from a host's record to the live map, and what the key does"""
    parts = [box(24, 120, 120, 56, SECOND, "host", "b")]
    for x, words in ((290, "staged map"), (520, "waiting map"), (750, "live map")):
        parts.append(box(x, 120, 130, 56, FIRST, words, "b"))
    parts += [arrow("M144 148 H288"), text(216, 140, "stage A B", style="s")]
    parts += [arrow("M420 148 H518"), text(468, 140, "commit", style="s")]
    parts += [arrow("M650 148 H748"), text(698, 140, "boundary", style="s")]
    parts += [arrow("M800 120 V92 H355 V118"), text(578, 85, "copied first where nothing is staged", style="s")]
    parts += [arrow("M850 120 V46 H84 V118"), text(467, 38, "read A: an entry of the live map, with the key on or off", style="s")]
    parts += [arrow("M880 148 H948"), box(950, 120, 120, 56, WORD), lines(1010, 145, "payload in,\npayload out")]
    parts.append(box(24, 244, 120, 48, E, "key", "b"))
    parts += [arrow("M84 244 V178"), lines(94, 206, "on: stage, commit and drop\nare taken; off: they get 11", "start")]
    parts.append(box(290, 304, 360, 36, "#f2f0ee", "dropped"))
    parts += [arrow("M310 176 V302"), text(318, 206, "drop", "start", "s")]
    # key off: a line that works both drops
    parts.append('<path d="M144 268 H585" class="drop"/>')
    for x in (400, 585):
        parts += [drop(f"M{x} 176 V302"), f'<circle cx="{x}" cy="268" r="4.5" fill="{DROP}"/>']
    parts.append(text(600, 272, "key off: what is staged and what waits is dropped", "start", "s drop"))
    return page(1094, 360, parts)


def superframe():
    """the 24 frames of T1: what each framing bit is, where the check is carried, and the bits that may carry signalling"""
    wide, channel, high, left, top = 74, 22, 22, 220, 66
    octets = left + wide
    right = octets + 24 * channel

    def row(f):
        return top + (f - 1) * high

    def middle(f):
        return row(f) + high // 2

    parts = [text(left + wide / 2, 26, "framing bit", style="b"), text((octets + right) / 2, 26, "an octet for each of 24 channels", style="b")]
    parts += [text(octets + channel * (j + 0.5), 54, j + 1, style="s") for j in range(24)]
    parts.append(lines(right + 52, 39, "first bit\nat place", "end"))
    for f in range(1, 25):
        if f % 2 == 1:
            fill, words = WORD, "data link"
        elif f % 4 == 2:
            fill, words = CHECK, f"C{f // 4 + 1}"
        else:
            fill, words = SIGNAL, "001011"[f // 4 - 1]
        parts += [text(70, row(f) + 15.5, f"frame {f}", "end"), box(left, row(f), wide, high, fill, words)]
        parts += [box(octets, row(f), 24 * channel, high, FIRST), text(right + 52, row(f) + 15.5, f"{193 * (f - 1):,}", "end", "s")]
    parts += [f'<path d="M{octets + channel * j} {top} V{row(25)}" style="stroke-width:0.4"/>' for j in range(1, 24)]
    bit = channel / 8
    parts += [box(octets + channel * j - bit, row(f), bit, high, E) for f in (6, 12, 18, 24) for j in range(1, 25)]
    parts.append(box(80, top, 76, 24 * high, FIRST, "superframe", "s"))
    # from the end of a superframe down to each of the six bits that carry its check
    parts.append(f'<path d="M188 {top - 30} V{middle(22)}"/>')
    parts += [arrow(f"M188 {middle(f)} H{left - 2}") for f in range(2, 23, 4)]
    parts.append(arrow(f"M156 {middle(24)} H188 V{row(25) + 22}"))
    for f, words in (
        (1, "twelve bits of the data link"),
        (2, "C1 to C6 carry the check of the\nsuperframe before"),
        (4, "0, 0, 1, 0, 1, 1 in frames 4, 8, .. 24:\nby these a superframe is found"),
        (6, "the last bit of each octet in frames\n6, 12, 18 and 24 may carry signalling,\n96 bits in all"),
        (10, "in the division all 24 framing bits\ncount as 1"),
    ):
        parts.append(lines(right + 72, row(f) + 15.5, words, "start"))
    low = row(25) + 14
    parts.append(text(200, low + 11.5, "to C1 to C6 of the next superframe", "start", "s"))
    colours = (WORD, "data link"), (CHECK, "check bit"), (SIGNAL, "signal"), (E, "may carry signalling")
    parts += legend(450, low, colours)
    return page(right + 310, low + 30, parts)


def main():
    check = sys.argv[1:] == ["--check"]
    if sys.argv[1:] and not check:
        sys.exit(__doc__)
    for drawn in (multiframe, shares, fold, chunks, exchange, superframe):
        name, drawing = f"{drawn.__name__}.svg", drawn()
        path = os.path.join(HERE, name)
        if not check:
            with open(path, "w", encoding="utf-8") as out:
                out.write(drawing)
        elif open(path, encoding="utf-8").read() != drawing:
            sys.exit(f"docs/{name} is not what docs/draw.py draws: run docs/draw.py")


main()
