"""Draws frames.svg and receivers.svg beside this file: python3 docs/diagrams/draw.py"""
import pathlib
from xml.sax.saxutils import escape

HERE = pathlib.Path(__file__).parent
FONT = "font-family='DejaVu Sans, Arial, sans-serif'"
INK, MARK, HEAD, BODY, CHECK = "#222", "#c9dff2", "#f3ecd2", "#dcefdc", "#f3d9d9"


def text(x, y, s, size=13, anchor="middle", weight="normal", fill=INK):
    return f"<text x='{x}' y='{y}' {FONT} font-size='{size}' font-weight='{weight}' text-anchor='{anchor}' fill='{fill}'>{escape(s)}</text>"


def svg(width, height, parts):
    return (f"<svg xmlns='http://www.w3.org/2000/svg' width='{width}' height='{height}' viewBox='0 0 {width} {height}'>"
            f"<rect width='{width}' height='{height}' fill='white'/>" + "".join(parts) + "</svg>\n")


# name of the field, its bytes as shown below it, its width, its colour
FRAMES = [
    ("PCS", "info 4 to 7; sum over the fields from receiver to data, as sent", [
        ("253", "1", 44, MARK), ("receiver", "1", 70, HEAD), ("sender", "1", 62, HEAD), ("info", "1", 50, HEAD), ("number", "1", 66, HEAD),
        ("length", "2, seven bits each", 110, HEAD), ("sender port", "1", 92, HEAD), ("receiver port", "1", 100, HEAD),
        ("packed data", "0 to 1,171", 130, BODY), ("sum", "1", 46, CHECK), ("254", "1", 44, MARK)]),
    ("PCS, CRC", "info 12 to 15; sum and CRC-16 over the same bytes as above; a part of the CRC that is 0 is sent as 128", [
        ("253", "1", 44, MARK), ("receiver to receiver port", "8, as above", 190, HEAD), ("packed data", "0 to 1,171", 110, BODY), ("sum", "1", 46, CHECK),
        ("CRC, lowest seven bits", "1", 154, CHECK), ("CRC, next seven", "1", 116, CHECK), ("CRC, top two", "1", 100, CHECK), ("254", "1", 44, MARK)]),
    ("MDU", "header sum over the five bytes before it, CRC over the body", [
        ("E3", "1", 40, MARK), ("01", "1", 40, HEAD), ("length", "2, high byte first", 120, HEAD), ("address", "1", 74, HEAD),
        ("header sum", "1", 92, CHECK), ("body: type and data", "1 to 1,025", 220, BODY), ("CRC-16", "2, high byte first", 120, CHECK)]),
    ("DLE", "every 10 between the marks is sent twice", [
        ("10 02", "2", 58, MARK), ("sequence", "1", 84, HEAD), ("node", "1", 60, HEAD), ("length", "1", 66, HEAD),
        ("data, or one error byte where the length is 0", "1 to 255", 330, BODY), ("10 03", "2", 58, MARK)]),
    ("Expansion", "FD, FE, FF between the marks are sent as FF 02, FF 01, FF 00; the CRC is taken before that", [
        ("FD", "1", 44, MARK), ("id", "1", 44, HEAD), ("type", "1", 56, HEAD), ("repeat", "1", 66, HEAD), ("address", "1", 74, HEAD),
        ("data", "0 to 1,024", 190, BODY), ("CRC-32", "4, low byte first", 120, CHECK), ("FE", "1", 44, MARK)]),
]


def frames():
    parts, y = [text(20, 24, "Bytes of PCS are in decimal, those of the other links in hex. Below each field: how many bytes it has, in decimal.", 12, "start")], 44
    for name, note, fields in FRAMES:
        parts += [text(20, y + 14, name, 16, "start", "bold"), text(130, y + 14, note, 12, "start", fill="#555")]
        x = 20
        for field, size, width, colour in fields:
            parts.append(f"<rect x='{x}' y='{y + 26}' width='{width}' height='34' fill='{colour}' stroke='{INK}'/>")
            parts += [text(x + width / 2, y + 48, field, 12), text(x + width / 2, y + 74, size, 10, fill="#555")]
            x += width
        y += 104
    return svg(860, y, parts)


def state(x, y, number, name, double=False):
    parts = [f"<rect x='{x - 75}' y='{y - 24}' width='150' height='48' rx='22' fill='{BODY if double else HEAD}' stroke='{INK}'/>"]
    return parts + [text(x, y - 4, name, 12, weight="bold"), text(x, y + 13, f"mode {number}", 10, fill="#555")]


def arrow(x1, y1, x2, y2, label, lx, ly, bend=0, anchor="middle"):
    mx, my = (x1 + x2) / 2, (y1 + y2) / 2 + bend
    return [f"<path d='M {x1} {y1} Q {mx} {my} {x2} {y2}' fill='none' stroke='{INK}' marker-end='url(#tip)'/>"] + [
        text(lx, ly + 13 * k, line, 10, anchor) for k, line in enumerate(label.split("\n"))]


TIP = ("<defs><marker id='tip' markerWidth='9' markerHeight='9' refX='8' refY='4' orient='auto'>"
       f"<path d='M 0 0 L 8 4 L 0 8 z' fill='{INK}'/></marker></defs>")


def two(y, title, opens, stays_hunting, stays_open, ends):
    p = [text(20, y, title, 16, "start", "bold")] + state(140, y + 70, 0, "hunting") + state(560, y + 70, 1, "open", True)
    p += arrow(215, y + 60, 485, y + 60, opens, 350, y + 34, -26)
    p += arrow(485, y + 82, 215, y + 82, ends, 350, y + 112, 26)
    p += arrow(100, y + 94, 180, y + 94, stays_hunting, 140, y + 138, 44)
    p += arrow(520, y + 94, 600, y + 94, stays_open, 560, y + 138, 44)
    return p


AT_254 = ["At 254, in this order (info 12 to 15: with CRC):", "6: fewer than 9 bytes; with CRC, fewer than 12", "5: more than 1,180 gathered, without CRC",
          "8: the sum or the CRC", "9: a field; 10: the length; 13: the packing"]


def receivers():
    p = [TIP, text(20, 24, "Bytes of PCS are in decimal, those of the other links in hex. Refusal numbers are in decimal.", 12, "start")]
    p += two(60, "PCS", "253", "any other byte: noise", "253: refusal 4, a new frame\nany other byte: gathered, up to 1,183",
             "254: message, or refusal 6, 5, 8, 9, 10, 13\nbyte 1,184: refusal 5")
    p += [text(670, 108 + 15 * k, line, 10, "start", fill="#555") for k, line in enumerate(AT_254)]
    p += two(250, "MDU", "E3, gathered", "any other byte: noise", "any byte: gathered", "byte six: refusal 9, 8, 10\nlast byte: message, or refusal 8")
    y = 440
    p += [text(20, y, "DLE", 16, "start", "bold")]
    p += state(140, y + 70, 0, "hunting") + state(380, y + 70, 1, "10 waits") + state(620, y + 70, 2, "open", True) + state(860, y + 70, 3, "open, 10 waits", True)
    p += arrow(215, y + 60, 305, y + 60, "10", 260, y + 48, -14) + arrow(305, y + 82, 215, y + 82, "any other:\nboth noise", 260, y + 102, 14)
    p += arrow(455, y + 70, 545, y + 70, "02", 500, y + 62)
    p += arrow(695, y + 60, 785, y + 60, "10", 740, y + 48, -14) + arrow(785, y + 82, 695, y + 82, "10: gathered\n02: refusal 4", 740, y + 102, 14)
    p += arrow(100, y + 94, 180, y + 94, "any other byte: noise", 140, y + 138, 44) + arrow(580, y + 94, 660, y + 94, "any other byte: gathered", 620, y + 138, 44)
    p += arrow(860, y + 46, 160, y + 46, "03: message, or refusal 6, 10; any other byte: refusal 7; a byte too many, in either open mode: refusal 5", 510, y + 6, -56)
    y = 650
    p += [text(20, y, "Expansion", 16, "start", "bold")]
    p += state(140, y + 70, 0, "hunting") + state(500, y + 70, 1, "open", True) + state(860, y + 70, 2, "open, FF waits", True)
    p += arrow(215, y + 60, 425, y + 60, "FD", 320, y + 44, -18) + arrow(425, y + 82, 215, y + 82, "FE: message, or refusal 6, 8, 9\na byte too many: refusal 5", 320, y + 106, 18)
    p += arrow(575, y + 60, 785, y + 60, "FF", 680, y + 44, -18) + arrow(785, y + 82, 575, y + 82, "00, 01, 02: gathered\nFD: refusal 4, a new frame", 680, y + 106, 18)
    p += arrow(100, y + 94, 180, y + 94, "any other byte: noise", 140, y + 138, 44)
    p += arrow(460, y + 94, 540, y + 94, "FD: refusal 4, a new frame\nany other byte: gathered", 500, y + 138, 44)
    p += arrow(860, y + 46, 160, y + 46, "any other byte, FE too: refusal 7; a byte too many: refusal 5", 510, y + 6, -52)
    return svg(960, y + 180, p)


(HERE / "frames.svg").write_text(frames())
(HERE / "receivers.svg").write_text(receivers())
