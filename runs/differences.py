#!/usr/bin/env python3
"""differences.py COMMAND..: holds a program that speaks the line protocol, and docs/DIFFERENCES.md, to the rows below.

COMMAND is the oracle, `replay` or `lines base`. Each row has the document, and for each of its inputs what the document says of
it in a word (it is no value, it is one, or the result that it has) and what the crate and we answer, by hand from document 01. It is
told as different where the program answers otherwise, where an answer does not disagree with the document's word, and where the
page has other rows, other inputs, another document, or tells the refusals otherwise. Exit status 1 where anything differs.

What the protocol cannot say: the crate's own answer in the table of what is narrower here. The oracle, too, answers there by
document 01's limit, test of UTF-8 and domain; only ours is run, with 22 told as 9, and 23 and 24 as 10."""
import pathlib
import re
import subprocess
import sys
import typing

from protocol import angle, bits, case, color, data, item, last_item, last_value, length, link, no, no_item, no_value, paint, shadow, value

PAGE = pathlib.Path(__file__).resolve().parent.parent / "docs" / "DIFFERENCES.md"
OLD_NUMBERS = {22: 9, 23: 10, 24: 10}


class Row(typing.NamedTuple):
    document: str
    said: list

    def answers(self):
        return [answer for _, answer in self.said]

    def inputs(self):
        """The texts with their calls; the steps of a list are one."""
        return list(dict.fromkeys((call, data(text)) for call, _, text, _ in self.answers()))


def row(document, *said):
    return Row(document, [pair for pairs in said for pair in pairs])


def invalid(*answers):
    return [("invalid", a) for a in answers]


def valid(*answers):
    return [("valid", a) for a in answers]


def means(result, answer):
    """The document takes the text, too, with this result."""
    return [(result, answer)]


def unasked(*answers):
    """No public document is asked, or it is not known what it says."""
    return [("unasked", a) for a in answers]


def blur(text, after, number=0.0, unit="none", place=0):
    return value(text, after, f"blur {bits(number)} {unit}", place)


def url(text, after, start, size):
    return value(text, after, f"url {start} {size}")


RED, WHITE = (255, 0, 0, 255), (255, 255, 255, 255)

NARROWER = [
    row("document 01: 4,096 bytes", unasked(no("color", " " * 4094 + "red", 1))),
    row("document 01: UTF-8", unasked(("color", None, b"\xff", "2 0 0 0 0 - 0 0 0 0"))),
    row("document 01: M below 2^53", unasked(no("length", "9007199254740992", 10, 1))),
    row("document 01: the scale within -22 to 22", unasked(no("length", "1e23", 10, 1), no("length", "0e23", 10, 1))),
    row("document 01: a dot is followed", unasked(no("length", "1.", 10, 1), no("length", "1.e3", 10, 1))),
    row("document 01: what begins like a number", unasked(*[no("length", t, 10, 1) for t in ["-", "+", ".", "1e"]])),
    row("document 01: the scale", unasked(no("length", "1e400", 10, 1))),
    row("document 01: 10 is never swallowed", unasked(no("paint", "rgb(-,0,0)", 10, 5), no_value("drop-shadow(rgb(-,0,0) 1px 2px)", 10, 17))),
    row("document 01: 10 is never swallowed", unasked(no_value("drop-shadow(1px 2px -)", 10, 21), no_value("drop-shadow(1px 2px 1e400)", 10, 21))),
    row("document 02", unasked(no("length", " ", 9, 2), no("color", "rgb(1, ", 9, 8))),
]

DOCUMENT_01 = [row("document 01: the 147 keywords", invalid(color("transparent", (0, 0, 0, 0))))]

COLOURS = [
    row("CSS Color 3, 4.2.1", invalid(*[color(t, (1, 2, 3, 255)) for t in ["rgb(1 2 3)", "rgb(1+2+3)", "rgb(1,2,3,)"]], color("hsl(0 0% 0%)", (0, 0, 0, 255)))),
    row("CSS Color 3, 4.2.1 and 4.2.4", invalid(color("rgb(1,2,3,0.5)", (1, 2, 3, 128)), color("hsl(0,0%,50%,0.5)", (128, 128, 128, 128)))),
    row("CSS Color 3, 4.2.2 and 4.2.5", invalid(color("rgba(1,2,3)", (1, 2, 3, 255)), color("hsla(0,0%,50%)", (128, 128, 128, 255)))),
    row("CSS Color 3, 4.2.1", invalid(color("rgb(20%,50,20%)", (51, 255, 51, 255)))),
    row("CSS Color 3, 4.2.1", invalid(color("rgb(1.5,2,3)", (2, 2, 3, 255)), color("rgb(1e0,2,3)", (1, 2, 3, 255)))),
    row("CSS Color 3, 4.2.4", invalid(color("hsl(120,100,50)", WHITE), color("hsl(0,0.5,50%)", (191, 64, 64, 255)))),
    row("CSS Color 3, 4.2.4", means("191 0 0 255", color("hsl(0,200%,25%)", (128, 0, 0, 255)))),
    row("CSS Color 3, 4.2.1", means("75 0 0 255", color("rgb(29.6078431372549%,0%,0%)", (76, 0, 0, 255)))),
    row("CSS Color 3, 4.2.2", means("0 0 0 75", color("rgba(0,0,0,0.296078431372549)", (0, 0, 0, 76)))),
    row("CSS Color 3, 4.2.4", means("120 64 64 255", color("hsl(0,30.9%,36.1%)", (121, 64, 64, 255)))),
    row("CSS Color 3, 4.4", valid(no("color", "currentColor", 5))),
    row("CSS Color 3, 4.5", valid(no("color", "ButtonFace", 5))),
]

WORDS = [
    row("CSS Values 3, 4", valid(no("length", "1PX", 6, 2), no("length", "1EM", 10, 1), no("angle", "1DEG", 6, 2), item("1PX", 0, 1, 1.0, "none"), no_item("1PX", 1, 9, 2),
        no_value("blur(1PX)", 7, 7, ord("P"), ord(")")), no_value("hue-rotate(1DEG)", 13, 12))),
    row("CSS Values 3, 5", valid(no("length", "1rem", 6, 2), no("length", "1vw", 6, 2), no("length", "1Q", 6, 2), no_value("blur(1rem)", 7, 7, ord("r"), ord(")")))),
    row("CSS Values 3, 3.1", valid(*[no("paint", t, 5) for t in ["NONE", "INHERIT", "Context-Fill", "url(#a) NONE"]], no_value("NONE", 4, 0))),
    row("CSS Color 3, 4.4", valid(no("paint", "currentcolor", 5), no("paint", "url(#a) currentcolor", 5), no_value("drop-shadow(1px 2px currentcolor)", 7, 21, ord("c"), ord(")")))),
    row("CSS Values 3, 3.4 and 8", valid(no("paint", "URL(#a)", 5), no("funciri", "URL(#a)", 8, 1, 0, 0, "URL("), no_value("URL(#a)", 6, 1), no_value("BLUR()", 6, 1))),
    row("CSS Values 3, 8.1", valid(no("length", "calc(1px)", 9, 1), no("angle", "calc(1deg)", 9, 1), no("color", "rgb(calc(1),2,3)", 9, 5), no_value("blur(calc(1px))", 9, 6))),
    row("CSS Variables 1, 3", valid(no("paint", "var(--a)", 5), no("length", "var(--a)", 9, 1), no_value("var(--a)", 6, 1))),
    row("CSS Cascade 4, 7.3", valid(*[no("paint", t, 5) for t in ["initial", "unset", "revert"]], *[no_value(t, 4, 0) for t in ["inherit", "initial"]])),
]

SYNTAX = [
    row("CSS Syntax 3, 5.4.9, 4.3.5 and 4.3.6", valid(no("color", "rgb(1,2,3", 4), *[no("funciri", t, 4) for t in ["url(#a", 'url("#a', 'url("#a"']], no("paint", "url(#a", 5),
        no_value("blur(1px", 4, 0), no_value("url(#a", 4, 0), no_value("blur(", 9, 6))),
    row("CSS Values 3, 2", valid(no("length", "10px ", 6, 5), no("angle", "1deg ", 6, 5))),
    row("CSS Syntax 3, 4.2", valid(no("color", "rgb(1,\f2,3)", 9, 7), no("color", "\fred", 5), no("color", "red\f", 6, 4), no("length", "\f1px", 9, 1), no("angle", "\f1deg", 9, 1),
        item("1px\f2px", 0, 3, 1.0, "px"), no_item("1px\f2px", 3, 9, 4), no("funciri", "url(\f#a)", 7, 5, 12, ord("#")), no("paint", "url(#a)\fred", 5),
        no_value("blur(\f)", 9, 6), blur("blur()\fsepia()", 6), no_value("blur()\fsepia()", 7, 7, 12, ord("("), place=6))),
    row("CSS Syntax 3, 4.2", invalid(*[paint(t, "color", rgba=RED) for t in ["\u00a0red", "red\u2003", "\u3000red", "\vred"]])),
    row("CSS Syntax 3, 4.3.2", valid(no("color", "/**/red", 5), no("color", "red/**/", 6, 4), no("color", "red/*", 6, 4), no("color", "rgb(1,/**/2,3)", 9, 7), no("length", "/**/1px", 9, 1),
        no("angle", "1deg/**/", 6, 5), item("1px/**/2px", 0, 3, 1.0, "px"), no_item("1px/**/2px", 3, 9, 4), no("funciri", "/**/url(#a)", 8, 1, 0, 0, "/**/"), no("paint", "/**/none", 5),
        no("paint", "url(#a)/**/red", 5), no_value("/**/blur()", 7, 1, ord("/"), ord("(")), no_value("blur(/**/)", 9, 6), no_value("drop-shadow(1px/**/2px)", 9, 16))),
    row("CSS Syntax 3, 4.3.7", valid(no("color", "\\72 ed", 5), no("color", "r\\67 b(1,2,3)", 5), no("color", "#\\31 23", 5), no("length", "1\\70 x", 6, 2), no("angle", "1\\64 eg", 6, 2),
        no("paint", "\\6eone", 5), no_value("\\62lur()", 7, 1, ord("\\"), ord("(")))),
]

LISTS = [
    row("SVG 1.1, 4.2", invalid(item("1px2px", 0, 3, 1.0, "px"), item("1px2px", 3, 6, 2.0, "px"), last_item("1px2px", 6),
        item("1px-2px", 0, 3, 1.0, "px"), item("1px-2px", 3, 7, -2.0, "px"), last_item("1px-2px", 7), item("1-2", 0, 1, 1.0, "none"), item("1-2", 1, 3, -2.0, "none"))),
    row("SVG 1.1, 4.2", invalid(item("1px,", 0, 4, 1.0, "px"), last_item("1px,", 4))),
    row("SVG 1.1, 4.2", invalid(last_item("", 0))),
]

LINKS = [
    row("CSS Values 3, 3.4", valid(*[no("funciri", f"url({t})", 7, 5, ord(t[0]), ord("#")) for t in ["a", "a#b"]], no("funciri", "url()", 7, 5, ord(")"), ord("#")), no("paint", "url(a)", 5),
        no_value("url(a)", 7, 5, ord("a"), ord("#")), no("iri", "a#b", 7, 1, ord("a"), ord("#")), no("iri", "", 4))),
    row("RFC 3986, 3.5", valid(no("funciri", "url(#)", 5), no("paint", "url(#)", 5), no_value("url(#)", 15, 1), no("iri", "#", 5))),
    row("CSS Syntax 3, 4.3.5", valid(no("funciri", "url(\"#a'b\")", 5), no("funciri", "url('#a\"b')", 5), no("paint", "url(\"#a'b\")", 5))),
    row("CSS Syntax 3, 4.3.5", valid(no_value("url('#a')", 7, 5, ord("'"), ord("#")), no_value('url("#a")', 7, 5, ord('"'), ord("#")))),
    row("CSS Syntax 3, 4.3.7", valid(no("funciri", "url(#a\\'b)", 5), no("funciri", "url(#a\\)b)", 6, 9), no("paint", "url(#a\\'b)", 5),
        url("url(#a\\)b)", 8, 5, 2), no_value("url(#a\\)b)", 7, 10, ord(")"), ord("("), place=8))),
    row("CSS Syntax 3, 4.3.7", means("5 1 61", link("funciri", "url(#\\61)", 5, "\\61")), means("6 1 61", link("funciri", 'url("#\\61")', 6, "\\61")), means("value 9 url 5 1", url("url(#\\61)", 9, 5, 3))),
    row("CSS Syntax 3, 4.3.6", invalid(link("funciri", "url(#a(b)", 5, "a(b"), paint("url(#a(b)", "url", 5, 3), url("url(#a(b)", 9, 5, 3))),
    row("CSS Syntax 3, 4.3.6", invalid(url("url(#a'b)", 9, 5, 3), url('url(#a"b)', 9, 5, 3))),
    row("CSS Syntax 3, 4.3.6", means("5 1 61", link("funciri", "url(#a\t)", 5, "a\t")), means("5 1 61", link("funciri", "url(#a\f)", 5, "a\f")),
        means("url 5 1 - 0 0 0 0", paint("url(#a\t)", "url", 5, 2)), means("value 8 url 5 1", url("url(#a\t)", 8, 5, 2))),
    row("CSS Syntax 3, 4.3.6", invalid(link("funciri", "url(#a\nb)", 5, "a\nb"), link("funciri", "url(#a\x01)", 5, "a\x01"), url("url(#a\nb)", 9, 5, 3), url("url(#a\x01)", 8, 5, 2))),
    row("CSS Syntax 3, 4.3.5", invalid(link("funciri", 'url("#a\nb")', 6, "a\nb"), paint('url("#a\nb")', "url", 6, 3))),
    row("CSS Syntax 3, 3.3", means("5 4 61efbfbd", link("funciri", "url(#a\0)", 5, "a\0")), means("value 8 url 5 4", url("url(#a\0)", 8, 5, 2))),
    row("CSS Syntax 3, 4.3.5", means("6 3 61c2a0", link("funciri", 'url("#a\u00a0")', 6, "a")), means("url 6 3 - 0 0 0 0", paint('url("#a\u00a0")', "url", 6, 1))),
    row("URL Standard, 4.4", means("1 2 6162", link("iri", "#a\tb", 1, "a\tb")), means("1 2 6162", link("iri", "#a\nb", 1, "a\nb")), means("6 2 6162", link("funciri", 'url("#a\tb")', 6, "a\tb"))),
    row("URL Standard, 4.4", valid(no("iri", "\f#a", 7, 1, 12, ord("#"))), means("1 1 61", link("iri", "#a\f", 1, "a\f")), means("1 1 61", link("iri", "#a\t", 1, "a\t"))),
    row("RFC 3986, 3.5", invalid(*[link("iri", f"#{t}", 1, t) for t in ["a\x01b", "a#b", 'a"b', "a%"]], link("funciri", "url(#a#b)", 5, "a#b"), link("funciri", 'url("#a\x01")', 6, "a\x01"))),
]

FILTERS = [
    row("Filter Effects 1, 5", invalid(last_value("", 0), last_value(" ", 0))),
    row("Filter Effects 1, 5", invalid(blur("blur() none", 7), last_value("blur() none", 7))),
    row("CSS Syntax 3, 4.3.4", invalid(blur("blur ()", 7), url("url (#a)", 8, 6, 1))),
    row("CSS Values 3, 5", invalid(blur("blur(5)", 7, 5.0), value("drop-shadow(1 2)", 16, shadow(1.0, 2.0, "none")))),
    row("CSS Values 3, 4", valid(no_value("brightness(-0)", 12, 12), no_value("blur(-0)", 12, 6), no_value("blur(-0px)", 12, 6))),
    row("CSS Values 3, 4", valid(no_value("drop-shadow(1px 2px -0 currentColor)", 7, 24, ord("c"), ord(")")))),
    row("Filter Effects 1, 6.1", invalid(value("drop-shadow(1px 2px -3px)", 25, shadow(1.0, 2.0)), value("drop-shadow(1px 2px -3px red)", 29, shadow(1.0, 2.0, "px", "255,0,0,255")))),
    row("Filter Effects 1, 6.1", invalid(value("drop-shadow(1px 2px 5%)", 23, shadow(1.0, 2.0)))),
    row("CSS Syntax 3, 4.3.3 and 4.3.11", invalid(value("drop-shadow(1px2px)", 19, shadow(1.0, 2.0)), value("drop-shadow(1px-2px)", 20, shadow(1.0, -2.0)),
        value("drop-shadow(currentColor1px 2px)", 32, shadow(1.0, 2.0)), value("drop-shadow(1px 2pxred)", 23, shadow(1.0, 2.0, "px", "255,0,0,255")),
        value("drop-shadow(#123-1px 2px)", 25, shadow(-1.0, 2.0, "px", "17,34,51,255")))),
    row("Filter Effects 1, 6.1", means(f"value 15 grayscale {bits(1.0)}", value("grayscale(150%)", 15, f"grayscale {bits(1.5)}")),
        *[means(f"value {len(f) + 3} {f} {bits(1.0)}", value(f"{f}(2)", len(f) + 3, f"{f} {bits(2.0)}")) for f in ["invert", "opacity", "sepia"]]),
]

EDITIONS = [
    row("CSS Color 3, 4.2.1", invalid(color("#1234", (17, 34, 51, 68)), color("#12345678", (18, 52, 86, 120)))),
    row("CSS Color 4", valid(no("color", "rebeccapurple", 5), no("color", "rgb(1 2 3/0.5)", 9, 10), no("color", "rgba(0,0,0,50%)", 7, 14, ord("%"), ord(")")), no("color", "hsl(1deg,0%,0%)", 9, 6),
        no("color", "hwb(0 0% 0%)", 5))),
    row("SVG 1.1, 4.2", valid(no("color", "red icc-color(a)", 6, 5), no("paint", "red icc-color(a)", 5))),
    row("SVG 1.1, 4.2", invalid(color("rgb(1.5%,0%,0%)", (4, 0, 0, 255)))),
    row("SVG 1.1, 4.2", invalid(angle("1turn", 1.0, "turn", 360.0))),
    row("CSS 2.1, 4.3.1", invalid(length("1e3", 1000.0, "none"))),
    row("SVG 1.1, 17.2.2", invalid(link("iri", "#1", 1, "1"), link("funciri", "url(#1)", 5, "1"))),
]

NOT_SURE = [
    row("SVG 1.1, 4.2", unasked(no_item(" ", 0, 9, 2))),
    row("SVG 2, 13.2", unasked(no("paint", "child", 5), no("paint", "child(1)", 5))),
    row("CSS Values 3, 3.4", unasked(no("funciri", 'url("#a" b)', 7, 10, ord("b"), ord(")")))),
    row("URL Standard, 4.4", unasked(no("iri", "#a b", 6, 4))),
    row("CSS Values 3, 4.3 and 6.1", unasked(value("brightness(.7%)", 15, f"brightness {bits(0.7 / 100)}"), angle(".7turn", 0.7, "turn", 0.7 * 360), angle(".7grad", 0.7, "grad", 0.7 * 180 / 200),
        angle("9rad", 9.0, "rad", 9 * 57.29577951308232))),
]

ROWS = NARROWER + DOCUMENT_01 + COLOURS + WORDS + SYNTAX + LISTS + LINKS + FILTERS + EDITIONS + NOT_SURE


def code(answer):
    return int(answer.split(" ")[0])


def agrees(word, answers):
    """Whether the answers for one input, a list's steps or one, are what the document's word says."""
    refused = any(code(a) for a in answers)
    return {"invalid": refused, "valid": not refused, "unasked": False}.get(word, word == answers[0].split(" ", 6)[6])


def no_difference(r):
    words = {}
    for word, (call, _, text, answer) in r.said:
        words.setdefault((call, text, word), []).append(answer)
    return [f"no difference: {call} {text!r}" for (call, text, word), answers in words.items() if agrees(word, answers)]


def written(span):
    """A text of the page: <U+0009> is that character, <U+0020 x 3> three of them, <byte FF> that byte, <empty> nothing."""
    span = span.replace("<empty>", "").encode()
    span = re.sub(rb"<U\+([0-9A-F]+)(?: x (\d+))?>", lambda m: chr(int(m[1], 16)).encode() * int(m[2] or 1), span)
    return re.sub(rb"<byte ([0-9A-F]{2})>", lambda m: bytes.fromhex(m[1].decode()), span)


def page_rows():
    """For each row of the page's tables its inputs, its document and what it tells of the answer; a table's head stands above `|---`."""
    lines = PAGE.read_text().split("\n")
    for i, line in enumerate(lines):
        if not line.startswith("| ") or lines[i + 1].startswith("|---"):
            continue
        cells = [c.strip(" ") for c in line.strip("|").split(" | ")]
        call, inputs = None, []
        for word, span in re.findall(r"(\w+): (?=`)|`([^`]*)`", cells[0]):
            call = word or call
            if not word:
                inputs.append((call, written(span)))
        yield inputs, cells[1], cells[-1]


def told(r):
    """The refusals' numbers in a row's answers, and whether an input of it is read."""
    inputs = {}
    for call, _, text, answer in r.answers():
        inputs.setdefault((call, text), set()).add(code(answer))
    return set().union(*inputs.values()) - {0}, {0} in inputs.values()


def off_page(r, inputs, document, here):
    """What the page's row has otherwise than r."""
    numbers = {int(n) for run in re.findall(r"refused by (\d+(?:(?:, | and )\d+)*)", here) for n in re.findall(r"\d+", run)}
    if inputs != r.inputs():
        return f"other inputs: {set(inputs) ^ set(r.inputs()) or 'the order'}"
    if not document.startswith(r.document):
        return f"another document: {document}, {r.document}"
    if ({OLD_NUMBERS.get(n, n) for n in numbers}, bool(re.search(r"\bread\b", here))) != told(r):
        return f"told otherwise: {here}, {told(r)}"
    return None


def main(command):
    answers = [a for r in ROWS for a in r.answers()]
    asked = "".join(case(call, place, text) + "\n" for call, place, text, _ in answers)
    found = subprocess.run(command, input=asked, capture_output=True, text=True).stdout.split("\n")[:-1]
    wrong = [f"{call} {text!r}\n  {want}\n  {got}" for (call, _, text, want), got in zip(answers, found + [""] * len(answers)) if want != got]
    page, count = list(page_rows()), f"{len(ROWS)} rows, {sum(len(r.inputs()) for r in ROWS)} inputs"
    if len(page) != len(ROWS) or count not in PAGE.read_text():
        wrong.append(f"{len(page)} rows on the page, or another count told; here {count}")
    for r, on_page in zip(ROWS, page):
        wrong += no_difference(r)
        off = off_page(r, *on_page)
        if off:
            wrong.append(f"{r.document}, {r.inputs()[0]}: {off}")
    for line in wrong[:20]:
        print(line)
    print(f"{count}, {len(answers)} cases, {len(wrong)} different")
    return 1 if wrong else 0


if __name__ == "__main__":
    if len(sys.argv) < 2:
        sys.exit("usage: differences.py COMMAND..")
    sys.exit(main(sys.argv[1:]))
