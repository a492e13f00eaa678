#!/usr/bin/env python3
"""Draws the crates and what each stands on, from crates.txt. Needs graphviz; whoever looks at the picture does not.

    docs/layers.py | dot -Tsvg | docs/layers.py --dark > docs/layers.svg

Without a word it writes the graph for dot: a box for each crate, and an arrow from it to each crate that its line of crates.txt names and
no other crate of that line leads to. dot gives each crate its row and leads the arrows around the boxes. With --dark it copies a drawing
from standard input and adds the colours of a dark page, which a browser takes where its pages are dark.

A crate with a src/main.rt is a program. Any other is theory where its sources are comments and the line of its tactics alone, and else code."""
import sys
from pathlib import Path

ROOT = Path(__file__).resolve().parent.parent
TITLE = "The crates and what each stands on"

# Of a light page, then of a dark one: the page, lines and text; for each kind the inside of a box and its edge.
GROUND = ("#ffffff", "#0d1117")
LINE = ("#6e7781", "#9198a1")
TEXT = ("#1f2328", "#f0f6fc")
KINDS = {
    "theory": (("#ddf4ff", "#0969da"), ("#0c2d6b", "#4493f8")),
    "code": (("#dafbe1", "#1a7f37"), ("#04260f", "#3fb950")),
    "program": (("#fff8c5", "#9a6700"), ("#341a00", "#d29922")),
}


def read_crates():
    """name -> the crates on its line, in the file's order; libraries of the kit are left out."""
    lines = (ROOT / "crates.txt").read_text(encoding="utf-8").splitlines()
    pairs = [line.split(":", 1) for line in lines if ":" in line and not line.lstrip().startswith("#")]
    named = {name.split()[0]: rest.split() for name, rest in pairs}
    return {name: [other for other in others if other in named] for name, others in named.items()}


def kind_of(name):
    """What a crate is, by its sources."""
    sources = ROOT / "crates" / name / "src"
    if (sources / "main.rt").exists():
        return "program"
    lines = [line.strip() for file in sources.glob("**/*.rt") for line in file.read_text(encoding="utf-8").splitlines()]
    return "code" if any(line and not line.startswith(("//", "#![")) for line in lines) else "theory"


def below(crates, name):
    """All that a crate stands on, however far down."""
    found, waiting = set(), list(crates[name])
    while waiting:
        other = waiting.pop()
        if other not in found:
            found.add(other)
            waiting += crates[other]
    return found


def direct(crates, name):
    """The crates on a line that no other crate of the line leads to."""
    others = crates[name]
    return [other for other in others if not any(other in below(crates, one) for one in others)]


def box(name, kind, label):
    """A box of this kind, by the name that lines know it by."""
    inside, edge = KINDS[kind][0]
    return f'"{name}" [label="{label}" class="{kind}" fillcolor="{inside}" color="{edge}"]'


def graph(crates):
    """The graph in dot's language. The boxes that say what the colours mean hang below the lowest row."""
    lowest = [name for name, others in crates.items() if not others]
    out = [
        f'digraph "{TITLE}" {{',
        f'graph [bgcolor="{GROUND[0]}" pad=0.2 nodesep=0.3 ranksep=0.5]',
        'node [shape=box style="filled,rounded" penwidth=1.5 width=1.2 height=0.42]',
        f'node [fontname="sans-serif" fontsize=13 fontcolor="{TEXT[0]}"]',
        f'edge [color="{LINE[0]}" penwidth=1.2 arrowsize=0.6]',
    ]
    out += [box(name, kind_of(name), name) for name in crates]
    out += [f'"{name}" -> "{other}"' for name in crates for other in direct(crates, name)]
    out.append("{ rank=same " + " ".join(box(f"kind {kind}", kind, kind) for kind in KINDS) + " }")
    out += [f'"{name}" -> "kind {kind}" [style=invis]' for name in lowest for kind in KINDS]
    return "\n".join(out + ["}"])


def dark_style():
    """The colours of a dark page."""
    rules = [
        f".graph > polygon {{ fill: {GROUND[1]}; }}",
        f"text {{ fill: {TEXT[1]}; }}",
        f".edge path {{ stroke: {LINE[1]}; }}",
        f".edge polygon {{ fill: {LINE[1]}; stroke: {LINE[1]}; }}",
    ]
    rules += [f".{kind} path {{ fill: {inside}; stroke: {edge}; }}" for kind, (_, (inside, edge)) in KINDS.items()]
    return "\n".join(["<style>", "@media (prefers-color-scheme: dark) {", *rules, "}", "</style>"])


def with_dark(drawing):
    """The drawing with that style at its front."""
    start = drawing.index(">", drawing.index("<svg")) + 1
    return drawing[:start] + "\n" + dark_style() + drawing[start:]


if __name__ == "__main__":
    if sys.argv[1:] == ["--dark"]:
        sys.stdout.write(with_dark(sys.stdin.read()))
    elif not sys.argv[1:]:
        print(graph(read_crates()))
    else:
        sys.exit(__doc__)
