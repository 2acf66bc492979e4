"""Changes at random of good texts and values, for the readers of bytes to be tried with."""

import copy
import json

# texts that readers may stumble over
ODD = [
    "null", "-0", "1.0", "1e2", "1e999", "18446744073709551615", "18446744073709551616", "9" * 400, "true", "[]", "{}",
    '""', '"\\ud800"', '"\\ud800\\udc00"', '"\\u0000"', "\u00e9", "\u2028", "\x7f", "\t", " ", "  ", "/", "..", "0", "00",
    "::", "10.0.0.1", "10.0.0.0/30", "2001:DB8::/122", "a" * 254, "[" * 130, "{}{}", ",", ":", "\\", '"', "NaN",
]  # fmt: skip
VALUES = [None, True, False, 0, 1, -1, 1.5, 64, 2**32, 2**64 - 1, 2**64, "", "a", "a b", "é", "10.0.0.0/30", "10.0.0.1", [], {}, [1], ["a"], {"a": 1}]


def changed_text(draw, text):
    """The text with a part taken away, doubled, moved or put in."""
    for _ in range(draw.choice([1, 1, 1, 2, 3])):
        at = draw.randrange(len(text) + 1)
        end = min(len(text), at + draw.choice([1, 1, 2, 5, 20]))
        how = draw.random()
        if how < 0.3:
            text = text[:at] + text[end:]
        elif how < 0.4:
            text = text[:end] + text[at:]
        elif how < 0.8:
            text = text[:at] + draw.choice(ODD) + text[at if how < 0.6 else end :]
        elif text:
            text = text[:at] + chr(draw.choice([draw.randrange(1, 128), 0xE9, 0x1F600])) + text[at + 1 :]
    return text


def inner_of(value):
    """All objects and arrays in the value."""
    if isinstance(value, (dict, list)):
        yield value
        for one in value.values() if isinstance(value, dict) else value:
            yield from inner_of(one)


def changed_value(draw, value):
    """The value with one member changed, taken away or put in."""
    value = copy.deepcopy(value)
    inner = draw.choice(list(inner_of(value)) or [{}])
    places = list(inner) if isinstance(inner, dict) else list(range(len(inner)))
    how = draw.random()
    if places and how < 0.25:
        del inner[draw.choice(places)]
    elif places and how < 0.8:
        inner[draw.choice(places)] = draw.choice(VALUES)
    elif isinstance(inner, dict):
        inner[draw.choice(["x", "name", "cidr", "", "é"])] = draw.choice(VALUES)
    else:
        inner.append(draw.choice(VALUES))
    return value


def changed_json(draw, text):
    """The JSON text, changed as a value or as a text, and spelled in some way."""
    if draw.random() < 0.5:
        return changed_text(draw, text)
    value = changed_value(draw, json.loads(text))
    return json.dumps(value, ensure_ascii=draw.random() < 0.5, separators=draw.choice([(",", ":"), (", ", ": ")]))
