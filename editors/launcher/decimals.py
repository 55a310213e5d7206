"""Fractions as Java writes them. The bridge shows a `float` and a `double` by their bits."""
import math
import re
import struct

SHOWN = re.compile(r"(?:float:0x([0-9a-f]{8})|double:0x([0-9a-f]{16}))")


def decimal(text):
    """What Java shows of a value: a fraction in decimal, and any other as it is."""
    bits = SHOWN.fullmatch(text)
    if not bits:
        return text
    form = ">f" if bits[1] else ">d"
    (value,) = struct.unpack(form, bytes.fromhex(bits[1] or bits[2]))
    if math.isnan(value):
        return "NaN"
    if math.isinf(value):
        return "-Infinity" if value < 0 else "Infinity"
    return written(*fewest_digits(value, form))


def fewest_digits(value, form):
    """The sign, the digits and the exponent of the shortest text that reads back as this value, of two digits or
    more."""
    for places in range(1, 17):
        text = "%.*e" % (places, value)
        if packed(text, form) == struct.pack(form, value):
            break
    digits, _, exponent = text.lstrip("-").partition("e")
    return text[:1] == "-", digits.replace(".", "").rstrip("0") or "0", int(exponent)


def packed(text, form):
    try:
        return struct.pack(form, float(text))
    except OverflowError:
        return None


def written(is_negative, digits, exponent):
    """The text of digits behind the first of which the point stands, moved by this exponent (Java SE,
    Double.toString)."""
    if not -3 <= exponent < 7:
        text = "%s.%sE%d" % (digits[0], digits[1:] or "0", exponent)
    elif exponent < 0:
        text = "0." + "0" * (-exponent - 1) + digits
    else:
        whole = digits.ljust(exponent + 1, "0")
        text = "%s.%s" % (whole[: exponent + 1], whole[exponent + 1 :] or "0")
    return ("-" if is_negative else "") + text
