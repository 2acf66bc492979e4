#!/usr/bin/env python3
"""Looks at what tools/draw_pools draws in a real browser, without a screen.

    tools/checks/pictures.py [PROGRAM]      else release/ipam

It draws one pool, the three pools of a datastore that PROGRAM makes, 16,384 blocks, and pools with long names and large
ones. Each is shown on a page of 1,280 and of 400 pixels, and drawn 400 and 320 pixels wide. There must be no error of a script or
of the page, no two texts may overlap, none may leave the picture or be smaller than 6.5 pixels, each block must have its
cell with its title, and the picture must fit the page. docs/pictures/pools.svg has to be what is drawn now. BROWSER, or
chromium, chromium-headless-shell, chromium-browser or google-chrome on the path, is the browser (of Debian: chromium).
Where there is none it computes the boxes of the texts from the file, and says so. Prints each check that fails, and then
`N passed, M failed`.
"""
import html
import importlib.machinery
import importlib.util
import itertools
import json
import os
import pathlib
import random
import re
import shutil
import subprocess
import sys
import tempfile
import xml.etree.ElementTree as tree

TOP = pathlib.Path(__file__).resolve().parents[2]
TOOL = TOP / "tools/draw_pools"
BROWSERS = ("chromium", "chromium-headless-shell", "chromium-browser", "google-chrome")
WIDTHS = (1280, 400)
SMALLEST = 6.5
HEAD = "BLOCK NODE STATE USED BORROWED\n"
SVG = "{http://www.w3.org/2000/svg}"
# What the page says of itself once it is loaded: in place of its contents, so that they need not be read.
LOOK = """
const picture = document.querySelector('svg'), frame = picture.getBoundingClientRect();
const box = one => { const b = one.getBoundingClientRect(); return [b.left, b.top, b.right, b.bottom]; };
const seen = {
  width: innerWidth, scrolls: document.documentElement.scrollWidth > innerWidth, errors: errors, frame: box(picture),
  texts: [...picture.querySelectorAll('text')].map(one => [one.textContent, ...box(one)]),
  sizes: [...picture.querySelectorAll('text')].map(one => parseFloat(getComputedStyle(one).fontSize) * frame.width / picture.viewBox.baseVal.width),
  cells: [...picture.querySelectorAll('g > path')].filter(one => one.getBoundingClientRect().width > 0).map(one => one.textContent),
};
document.body.textContent = JSON.stringify(seen);
"""
passed = failed = 0


def check(what, holds, seen=""):
    global passed, failed
    if holds:
        passed += 1
    else:
        failed += 1
        print(f"failed: {what}: {str(seen)[:300]}")


# ---- what is drawn


def drawer():
    """The tool as a module."""
    loader = importlib.machinery.SourceFileLoader("draw_pools", str(TOOL))
    module = importlib.util.module_from_spec(importlib.util.spec_from_loader("draw_pools", loader))
    loader.exec_module(module)
    return module


def shown(pools):
    """The line of `show --json` with what the tool reads of it."""
    return json.dumps({"pools": [{"cidr": cidr, "name": name} for name, cidr in pools]}) + "\n" + HEAD


def row(cidr, node, used, size, borrowed):
    state = "-" if node == "-" else "confirmed"
    return f"{cidr} {node} {state} {used}/{size} {borrowed}\n"


def one_pool():
    return shown([("p", "10.0.0.0/28")]) + row("10.0.0.0/30", "a", 4, 4, 0) + row("10.0.0.8/30", "b", 3, 4, 2)


def all_blocks():
    """As many blocks as a datastore may have."""
    draw = random.Random(1)
    text = [shown([("large", "10.16.0.0/12")])]
    for at in range(16_384):
        node, used = draw.choice(["-", *(f"node-{n}" for n in range(300))]), draw.choice([0, 64, draw.randrange(65)])
        borrowed = draw.choice([0] * 9 + [used // 2])
        text.append(row(f"10.{16 + at // 1024}.{at // 4 % 256}.{at % 4 * 64}/26", node, used, 64, borrowed))
    return "".join(text)


def odd_pools():
    """Long names and addresses, a pool without blocks, and one that has more slots than can be drawn."""
    names = ["n" * 253, "m.m", "x" * 60, "empty", "y" * 70]
    nets = ["2001:db8:1111:2222:3333:4444::/96", "fd00::/48", "192.168.100.0/24", "172.16.0.0/12"]
    pools = zip(names, [*nets, "2001:1db8:1111:2222:3333:4444:5550:0/108"])
    text = [shown(pools), row("2001:db8:1111:2222:3333:4444:5555:6640/122", "n" * 253, 63, 64, 63)]
    text += [row(f"fd00::{at * 512 + 64:x}/122", "b", at, 64, 0) for at in range(60)]
    text += [row(f"192.168.100.{at * 2}/31", "c", at % 3, 2, 0) for at in range(128)]
    return "".join(text)


def run(text, *words):
    return subprocess.run([TOOL, *words], input=text.encode(), capture_output=True, check=False)


# ---- looking


def browser():
    named = os.environ.get("BROWSER")
    return named or next(filter(None, map(shutil.which, BROWSERS)), None)


def by_browser(program, folder, picture, width):
    """What the page says of itself in this browser."""
    page = folder / "page.html"
    body = '<meta charset="utf-8"><body style="margin:0"><script>const errors=[];addEventListener("error",e=>errors.push(e.message),true)</script>'
    page.write_text(f"<!doctype html>{body}\n{picture}<script>{LOOK}</script>")
    words = [program, "--headless", "--disable-gpu", "--hide-scrollbars", "--enable-logging=stderr", f"--user-data-dir={folder}/browser"]
    words += [f"--window-size={width},900", "--dump-dom", page.as_uri()]
    words += ["--no-sandbox"] if os.geteuid() == 0 else []
    ran = subprocess.run(words, capture_output=True, text=True, timeout=300, check=False)
    found = re.search(r"\{.*\}", html.unescape(ran.stdout), flags=re.S)
    if not found:
        return {"errors": [ran.stderr[-300:] or "no page"], "width": 0, "scrolls": True, "frame": [0] * 4, "texts": [], "sizes": [], "cells": []}
    seen = json.loads(found[0])
    seen["errors"] += re.findall(r".*:CONSOLE.*", ran.stderr)
    return seen


def by_file(picture, width):
    """The same by the numbers of the file. A text is as wide as a font of one width makes it, and shrinks with the page."""
    root = tree.fromstring(picture)
    scale = min(1, width / float(root.get("width")))
    texts, sizes = [], []
    for one in root.iter(f"{SVG}text"):
        size, x, y = (float(one.get(name)) for name in ("font-size", "x", "y"))
        left = x - 0.605 * size * len(one.text) if one.get("text-anchor") == "end" else x
        box = (left, y - 0.93 * size, left + 0.605 * size * len(one.text), y + 0.24 * size)
        texts.append([one.text, *(scale * at for at in box)])
        sizes.append(scale * size)
    frame = [0, 0, *(scale * float(root.get(name)) for name in ("width", "height"))]
    cells = [one.text for one in root.iterfind(f"{SVG}g/{SVG}path/{SVG}title")]
    errors = [one.tag for one in root.iter() if one.tag == f"{SVG}script"]
    return {"errors": errors, "width": width, "scrolls": frame[2] > width, "frame": frame, "texts": texts, "sizes": sizes, "cells": cells}


def overlaps(texts):
    """The pairs of texts that share more than a hair of the page."""
    for (one, *a), (other, *b) in itertools.combinations(texts, 2):
        if min(a[2], b[2]) - max(a[0], b[0]) > 0.5 and min(a[3], b[3]) - max(a[1], b[1]) > 0.5:
            yield one, other


def is_within(box, frame):
    return box[0] >= frame[0] - 0.5 and box[1] >= frame[1] - 0.5 and box[2] <= frame[2] + 0.5 and box[3] <= frame[3] + 0.5


# ---- the checks


def try_picture(name, text, look):
    """A picture on pages of both widths, and one that is drawn for the narrow page."""
    rows = [line.split() for line in text.splitlines()[2:]]
    for width, words in [*((width, ()) for width in WIDTHS), *((width, ("--width", str(width))) for width in (400, 320))]:
        what = f"{name} at {width} pixels{', drawn so wide' if words else ''}"
        ran = run(text, *words)
        check(f"{what}: is drawn", ran.returncode == 0, ran.stderr.decode())
        if ran.returncode == 0:
            try_look(what, rows, look(ran.stdout.decode(), width), width)


def try_look(what, rows, seen, width):
    check(f"{what}: no errors", not seen["errors"], seen["errors"])
    check(f"{what}: is as wide as the page", seen["width"] == width and not seen["scrolls"], seen["width"])
    check(f"{what}: no texts overlap", not (found := list(overlaps(seen["texts"]))), found)
    outside = [text for text, *box in seen["texts"] if not is_within(box, seen["frame"])]
    check(f"{what}: no text leaves the picture", seen["texts"] and not outside, outside)
    check(f"{what}: texts are legible", min(seen["sizes"], default=0) >= SMALLEST, min(seen["sizes"], default=0))
    titles = {title.split(" ")[0]: title for title in seen["cells"]}
    missing = [cidr for cidr, node, *_ in rows if f" {'no node' if node == '-' else node}" not in titles.get(cidr, "")]
    check(f"{what}: each block has a cell with its node", not missing and len(seen["cells"]) == len(rows), missing)


def try_overlap(look):
    """Texts that overlap are found."""
    picture = run(one_pool()).stdout.decode()
    moved = picture.replace("</svg>", '<text x="14" y="31" font-size="17">over</text></svg>')
    check("texts that overlap are found", list(overlaps(look(moved, 1280)["texts"])) == [("How full the blocks are", "over")])


def try_refusals():
    """What is no input of the tool."""
    for text, words, status, told in (
        ("", (), 1, "show --json"),
        (shown([("p", "10.0.0.0/28")]).split("\n")[0], (), 1, "show blocks"),
        (HEAD, (), 1, "show --json"),
        ("{}\n" + HEAD, (), 1, "neither"),
        ("10.0.0.0/30 a\n", (), 1, "neither"),
        (shown([("p", "10.0.0.0/28")]) + row("10.0.1.0/30", "a", 1, 4, 0), (), 1, "10.0.1.0/30 is in no pool"),
        (shown([("p", "10.0.0.0/28")]) + row("::/124", "a", 1, 4, 0), (), 1, "::/124 is in no pool"),
        (one_pool(), ("--width", "10"), 2, "Draws the pools"),
        (one_pool(), ("--wide",), 2, "Draws the pools"),
    ):
        ran = run(text, *words)
        seen = (ran.returncode, ran.stdout, ran.stderr.decode())
        check(f"refuses {text[-40:]!r} {words}", seen[:2] == (status, b"") and told in seen[2], seen)


def main():
    program = pathlib.Path(sys.argv[1] if len(sys.argv) > 1 else TOP / "release/ipam").resolve()
    found = browser()
    if found is None:
        print("no browser: the boxes of texts are computed from the file")
    three = drawer().example(program)
    kept = (TOP / "docs/pictures/pools.svg").read_bytes()
    check("docs/pictures/pools.svg is what `draw_pools --example` draws", kept == run(three).stdout)
    with tempfile.TemporaryDirectory() as folder:

        def look(picture, width):
            tree.fromstring(picture)
            return by_browser(found, pathlib.Path(folder), picture, width) if found else by_file(picture, width)

        for name, text in (("one pool", one_pool()), ("three pools", three), ("all blocks", all_blocks()), ("odd pools", odd_pools())):
            try_picture(name, text, look)
        try_overlap(look)
    try_refusals()
    print(f"{passed} passed, {failed} failed")
    return failed != 0


if __name__ == "__main__":
    sys.exit(main())
