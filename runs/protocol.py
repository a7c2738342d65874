"""Cases and answers of the line protocol (docs/RUNS.md), for those that are written by hand: each is a call, a list place or None, a text and its answer."""
import struct


def bits(x):
    return struct.pack(">d", x).hex()


def data(text):
    return text if isinstance(text, bytes) else text.encode()


def case(call, place, text):
    return f"{call} {'' if place is None else f'{place} '}{data(text).hex() or '-'}"


def accepted(result):
    return "0 0 0 0 0 - " + result


def refused(code, position, result, found=0, wanted=0, part=""):
    return f"{code} {position} 0 {found} {wanted} {part.encode().hex() or '-'} {result}"


NO_LENGTH = "0000000000000000 none"
# What each call that reads a whole text tells beside a refusal.
NOTHING = {"color": "0 0 0 0", "length": NO_LENGTH, "angle": "0000000000000000 deg 0000000000000000", "iri": "0 0 -", "funciri": "0 0 -", "paint": "- 0 0 - 0 0 0 0"}


def no(call, text, code, position=0, *told):
    """A whole text that is refused; `told` are the bytes found and wanted, and the part."""
    return (call, None, text, refused(code, position, NOTHING[call], *told))


def color(text, rgba):
    return ("color", None, text, accepted(" ".join(map(str, rgba))))


def length(text, number, unit):
    return ("length", None, text, accepted(f"{bits(number)} {unit}"))


def angle(text, number, unit, degrees):
    return ("angle", None, text, accepted(f"{bits(number)} {unit} {bits(degrees)}"))


def link(call, text, start, found):
    return (call, None, text, accepted(f"{start} {len(data(found))} {data(found).hex()}"))


def paint(text, kind, start=0, size=0, fallback="-", rgba=(0, 0, 0, 0)):
    return ("paint", None, text, accepted(f"{kind} {start} {size} {fallback} " + " ".join(map(str, rgba))))


def item(text, place, after, number, unit):
    return ("lengths", place, text, accepted(f"value {after} {bits(number)} {unit}"))


def no_item(text, place, code, position):
    return ("lengths", place, text, refused(code, position, f"refused {len(data(text))} {NO_LENGTH}"))


def last_item(text, place):
    return ("lengths", place, text, accepted(f"end {len(data(text))} {NO_LENGTH}"))


def value(text, after, words, place=0):
    return ("filter", place, text, accepted(f"value {after} {words}"))


def no_value(text, code, position, *told, place=0):
    return ("filter", place, text, refused(code, position, f"refused {len(data(text))}", *told))


def last_value(text, place):
    return ("filter", place, text, accepted(f"end {len(data(text))}"))


def shadow(dx, dy, unit="px", rgba="-", deviation=0.0, deviation_unit="none"):
    """The words of a drop-shadow whose offsets have one unit."""
    return f"drop-shadow {bits(dx)} {unit} {bits(dy)} {unit} {bits(deviation)} {deviation_unit} {rgba}"
