"""Selector texts and what must be read from each. `tools/check` asks the program all of them.

The parser, the printer and the matcher below were written only from the grammar. An answer has the
printed form of what a text is read as, and `y` or `n` for each of three lists of labels. A text that is
refused has `form` or `long` in place of these.
"""

import random
import re

RANDOM_TEXTS = 90
KEY = re.compile(r"[A-Za-z0-9_./-]+")
TEXT_MAX, KEY_MAX, VALUE_MAX, DEPTH_MAX = 1024, 317, 253, 32

LABELS = [
    [],
    [("all", "1"), ("contains", "c"), ("has", "2"), ("in", "a"), ("not", "b"), ("zone", "west")],
    [("a", "x"), ("a/b.c-d_e", ""), ("gpu", "1"), ("k", "it's"), ("zone", "eastern")],
]


class Bad(Exception):
    """The text has no reading."""


def tokens_of(text):
    tokens, at = [], 0
    while at < len(text):
        if text[at] in " \t":
            at += 1
            continue
        word = KEY.match(text, at)
        if word:
            tokens.append(("word", word.group()))
            at = word.end()
        elif text[at] in "'\"":
            end = text.find(text[at], at + 1)
            if end < 0:
                raise Bad
            tokens.append(("value", text[at + 1 : end]))
            at = end + 1
        elif text[at : at + 2] in ("==", "!=", "&&", "||"):
            tokens.append((text[at : at + 2], None))
            at += 2
        elif text[at] in "!(){},":
            tokens.append((text[at], None))
            at += 1
        else:
            raise Bad
    return tokens


class Parser:
    """Selectors are tuples: ("all",), ("has", k), ("is", k, v), ("not", s), ("in", k, [v]),
    ("contains" | "starts" | "ends", k, v), ("and" | "or", [s])."""

    def __init__(self, text):
        self.tokens = tokens_of(text)
        self.at = 0

    def peek(self, ahead=0):
        at = self.at + ahead
        return self.tokens[at] if at < len(self.tokens) else (None, None)

    def take(self, kind, word=None):
        found = self.peek()
        if found[0] != kind or (word is not None and found[1] != word):
            raise Bad
        self.at += 1
        return found[1]

    def whole(self):
        if not self.tokens:
            return ("all",)
        found = self.several("||", "or", lambda d: self.several("&&", "and", self.negation, d), 0)
        if self.at != len(self.tokens):
            raise Bad
        return found

    def several(self, sign, name, member, depth):
        members = [member(depth)]
        while self.peek()[0] == sign:
            self.at += 1
            members.append(member(depth))
        return members[0] if len(members) == 1 else (name, members)

    @staticmethod
    def deeper(depth):
        if depth == DEPTH_MAX:
            raise Bad
        return depth + 1

    def negation(self, depth):
        if self.peek()[0] == "!":
            self.at += 1
            return ("not", self.negation(self.deeper(depth)))
        if self.peek()[0] == "(":
            self.at += 1
            inside = self.deeper(depth)
            found = self.several("||", "or", lambda d: self.several("&&", "and", self.negation, d), inside)
            self.take(")")
            return found
        word = self.take("word")
        if word in ("all", "has") and self.peek()[0] == "(":
            self.at += 1
            found = ("all",) if word == "all" else ("has", self.key(self.take("word")))
            self.take(")")
            return found
        return self.comparison(self.key(word), depth)

    @staticmethod
    def key(word):
        if len(word) > KEY_MAX:
            raise Bad
        return word

    def value(self):
        value = self.take("value")
        if len(value.encode()) > VALUE_MAX:
            raise Bad
        return value

    def comparison(self, key, depth):
        kind, word = self.peek()
        if kind in ("==", "!="):
            self.at += 1
            found = ("is", key, self.value())
            if kind == "!=":
                self.deeper(depth)
                found = ("not", found)
            return found
        self.take("word")
        if word == "not":
            self.take("word", "in")
            found = ("in", key, self.values())
            self.deeper(depth)
            return ("not", found)
        if word == "in":
            return ("in", key, self.values())
        if word == "contains":
            return ("contains", key, self.value())
        if word in ("starts", "ends"):
            self.take("word", "with")
            return (word, key, self.value())
        raise Bad

    def values(self):
        self.take("{")
        found = set()
        if self.peek()[0] != "}":
            found.add(self.value())
            while self.peek()[0] == ",":
                self.at += 1
                found.add(self.value())
        self.take("}")
        return sorted(found, key=str.encode)


def quoted(value):
    quote = '"' if "'" in value else "'"
    return quote + value + quote


def member_text(member, wrapped):
    text = printed(member)
    return f"({text})" if member[0] in wrapped else text


def printed(selector):
    kind = selector[0]
    if kind == "all":
        return "all()"
    if kind == "has":
        return f"has({selector[1]})"
    if kind == "not":
        return "!" + member_text(selector[1], ("and", "or"))
    if kind == "in":
        return f"{selector[1]} in {{{', '.join(quoted(v) for v in selector[2])}}}"
    if kind == "and":
        return " && ".join(member_text(m, ("and", "or")) for m in selector[1])
    if kind == "or":
        return " || ".join(member_text(m, ("or",)) for m in selector[1])
    sign = {"is": "==", "contains": "contains", "starts": "starts with", "ends": "ends with"}[kind]
    return f"{selector[1]} {sign} {quoted(selector[2])}"


def admits(selector, labels):
    kind = selector[0]
    if kind == "all":
        return True
    if kind == "not":
        return not admits(selector[1], labels)
    if kind == "and":
        return all(admits(m, labels) for m in selector[1])
    if kind == "or":
        return any(admits(m, labels) for m in selector[1])
    found = dict(labels).get(selector[1])
    if found is None:
        return False
    if kind == "has":
        return True
    asked = selector[2]
    return {
        "is": lambda: found == asked,
        "in": lambda: found in asked,
        "contains": lambda: asked in found,
        "starts": lambda: found.startswith(asked),
        "ends": lambda: found.endswith(asked),
    }[kind]()


def answer(text):
    try:
        selector = Parser(text).whole()
    except Bad:
        return "form"
    form = printed(selector)
    if max(len(text.encode()), len(form.encode())) > TEXT_MAX:
        return "long"
    assert Parser(form).whole() == selector, text
    return form + "⇒" + "".join("y" if admits(selector, labels) else "n" for labels in LABELS)


BY_HAND = """
all()
all ( )
 all ( ) 
has(zone)
has( k )
has (gpu)
has(all)
has(has)
zone == 'west'
zone=="west"
zone == "west"&&! has(gpu)
a != 'x'
!a == 'x'
!a != 'x'
!!a == 'x'
zone in {'west', 'east'}
zone in {'west','east','west'}
zone in {}
zone in { }
zone in {''}
zone not in {'west'}
zone not in {}
zone notin {'west'}
zone contains 'es'
zone contains ''
zone starts with 'east'
zone ends with 'n'
zone ends with 'eastern'
zone ends with 'xeastern'
zone starts with ''
a/b.c-d_e == ''
a/b.c-d_e ends with ''
k == "it's"
k == 'it's'
k == 'say "hi"'
k == "say 'hi'"
k in {"it's", 'a"b'}
in in {'a'}
in == 'a'
not in {'b'}
not not in {'b'}
not == 'b'
not != 'b'
contains contains 'c'
contains == 'c'
starts starts with 's'
ends ends with 's'
with == 'x'
all == '1'
all in {'1'}
has == '2'
has not in {'2'}
all
has
has()
has('a')
has(a b)
has(a
all(
all)
all(a)
(a == 'x')
((a == 'x'))
(a && b)
(all())
()
( )
zone ==
zone = 'west'
zone === 'west'
zone
zone 'west'
== 'west'
'west'
'west' == zone
zone == west
zone == 'west
zone == west'
zone == 'west"
zone == 'west' 'east'
zone == 'west' east == 'x'
zone == 'west' &&
&& zone == 'west'
zone == 'west' & has(a)
zone == 'west' | has(a)
zone == 'west' ||
|| has(a)
has(a) && && has(b)
has(a) || || has(b)
has(a) &&|| has(b)
!
!!
!has(gpu)
! has ( gpu )
!(has(gpu))
!(has(gpu) && has(zone))
!(has(gpu) || has(zone))
!((has(gpu) && has(zone)))
has(a) && has(gpu)
has(a)&&has(gpu)&&has(zone)
has(a) || has(gpu) || has(zone)
has(a) && has(b) || has(zone)
has(zone) || has(a) && has(b)
(has(zone) || has(a)) && has(b)
(has(zone) && has(a)) || has(b)
has(zone) && (has(a) || has(b))
has(zone) && (has(a) && has(b))
(has(zone) && has(a)) && has(b)
has(zone) || (has(a) || has(b))
(has(zone) || has(a)) || has(b)
(((has(zone) || has(a)))) || has(b)
!has(zone) && has(a)
!(has(zone)) && has(a)
!has(zone) || !has(a) && !has(gpu)
!(!(has(zone) && has(a)))
zone != 'west' && zone != 'eastern'
zone not in {'west'} || gpu != '1'
!zone not in {'west'}
! = 'x'
a ! = 'x'
a !== 'x'
!== 'x'
a == !'x'
a in 'x'
a in {'x'
a in 'x'}
a in {'x',}
a in {,}
a in {,'x'}
a in {'x' 'y'}
a in {'x',,'y'}
a in {x}
a in ('x')
a in{'x'}
a  in  {  'x'  ,  'y'  }
ain {'x'}
a in {'y','x','z','x','aa','a',''}
a in {'ä','z','b','B','Z'}
a == 'ä'
ä == 'x'
a == 'x' # no
a; b
a == 'x';
a contains'x'
a startswith 'x'
a starts 'x'
a starts with
a starts with with
a starts with'x'
a ends 'x'
a endswith 'x'
a not 'x'
a not in 'x'
a not contains 'x'
not
in
has(k)&&!has(gpu)||a=='x'
A.B/C-D_1 == 'X'
/ == 'x'
- == 'x'
. == 'x'
_ == 'x'
0 == 'x'
a:b == 'x'
a,b == 'x'
a == ' x '
a == '&& || ! ( ) { }'
!(a == 'x' || (b == 'y' && c == 'z'))
all() && all()
all() || has(x)
!all()
all() && !all()
""".split("\n")[1:-1]


def by_length():
    """Texts at the limits of length and of depth."""
    for n in (1, 316, 317, 318):
        yield "has(" + "k" * n + ")"
    yield "k" * 318 + " == 'x'"
    for n in (252, 253, 254):
        yield "a == '" + "v" * n + "'"
    yield "a == '" + "ä" * 126 + "v'"
    yield "a == '" + "ä" * 127 + "'"
    for n in (31, 32, 33):
        yield "!" * n + "all()"
        yield "(" * n + "all()" + ")" * n
        yield "!(" * (n // 2) + "!" * (n % 2) + "has(a)" + ")" * (n // 2)
        yield "!" * n + "a != 'x'"
        yield "(" * n + "a not in {'x'}" + ")" * n
        yield "!" * (n - 1) + "(has(a) && has(b))"
        yield "(" * (n - 1) + "a != 'x' || has(b)" + ")" * (n - 1)
    for n in (1024, 1025):
        yield " " * n
        yield "has(a)" + "\t" * (n - 6)
        yield "zone ==" + " " * (n - 7)
        # the printed form has the text's length
        yield " && ".join(["has(aa)"] * 90) + " && has(" + "b" * (n - 90 * 11 - 5) + ")"
    for n in (252, 253):
        # the printed form has 1,024 and 1,025 bytes; the text is shorter
        yield "||".join(["a=='" + "v" * 244 + "'"] * 3 + ["a=='" + "v" * n + "'"])
    for n in (11, 12):
        yield "||".join(["has(aaaaa)"] * 72) + "||has(" + "b" * n + ")"
    # a text of more than 1,024 bytes that has no reading, and one with a short printed form
    yield "a==x" + " " * 1100
    yield "a" + " " * 1100 + "=='x'"
    yield "a=='x" + "'" * 1100


def random_text(rng, depth):
    key = rng.choice(["a", "zone", "gpu", "in", "not", "all", "has", "contains", "k", "a/b.c-d_e"])
    value = rng.choice(["'x'", "'west'", '"east"', "''", "'1'", "\"it's\"", "'es'"])
    blank = rng.choice(["", " ", "  ", "\t"])
    if depth > 0 and rng.random() < 0.7:
        first, second = random_text(rng, depth - 1), random_text(rng, depth - 1)
        return rng.choice([f"{first}{blank}&&{blank}{second}", f"{first}{blank}||{blank}{second}", f"!{blank}{first}", f"({blank}{first}{blank})", f"({first}||{second})"])
    return rng.choice(
        [
            f"has({blank}{key}{blank})",
            f"{key}{blank}=={blank}{value}",
            f"{key}{blank}!={blank}{value}",
            f"{key} in {{{value}{blank},{value},'west'}}",
            f"{key} not in {{{value}{blank}}}",
            f"{key} contains{blank}{value}",
            f"{key} starts with {value}",
            f"{key} ends with {value}",
            f"all({blank})",
        ]
    )


def damaged(rng, text):
    at = rng.randrange(len(text))
    return rng.choice([text[:at] + text[at + 1 :], text[:at] + rng.choice("!&|(){},='\"x ") + text[at:]])


def all_texts():
    """The texts, always the same, of which some are there twice."""
    rng = random.Random(19)
    yield ""
    yield "\t"
    yield from BY_HAND
    yield from by_length()
    for n in range(RANDOM_TEXTS):
        text = random_text(rng, rng.randrange(4))
        yield damaged(rng, text) if n % 3 == 2 else text
