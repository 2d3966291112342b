"""Pictures, as DOT texts: Hasse diagrams of Bruhat intervals, W-graphs and cells."""
import os
import shutil
import subprocess

from .base import CELLS
from .errors import CoxeterError
from .texts import counted

# What graphviz is asked to draw, by the end of a file's name. Files of the other two are DOT texts.
DRAWN = {".svg": "svg", ".png": "png"}
TEXTS = (".dot", ".gv")


def hasse(group, w, y=()):
    """The Hasse diagram of the interval from y to w in Bruhat order. Elements of equal length stand side by side."""
    return hasse_text(group.hasse_diagram(y, w))


def w_graph(group, side="left"):
    """The W-graph for the left or the right descents. An edge with another value than 1 is labelled by it."""
    return w_graph_text(group.W_graph(side))


def cells(group, side="left"):
    """The left, right or two-sided cells as clusters, with the edges of the W-graph (the left one for two-sided cells)."""
    if side not in CELLS:
        raise ValueError(f"the side is left, right or two-sided, not {side!r}")
    method, of_graph = CELLS[side]
    lines = []
    for number, cell in enumerate(getattr(group, method)(), 1):
        lines.append(f"subgraph cluster_{number} {{ {' '.join(f'{name(group, x)};' for x in cell)} }}")
    return dot("cells", lines + edges(group.W_graph(of_graph)))


def hasse_text(diagram):
    """A Hasse diagram as a DOT text."""
    group = diagram.group
    lines = ["rankdir=BT", "node [shape=plaintext]"]
    for length in sorted({len(x) for x in diagram}):
        names = " ".join(f"{name(group, x)};" for x in diagram if len(x) == length)
        lines.append(f"{{ rank=same; {names} }}")
    return dot("hasse", lines + [f"{name(group, z)} -- {name(group, x)}" for x, z in diagram.edges()])


def w_graph_text(graph):
    """A W-graph as a DOT text. Descents are an attribute, and the second line of the label."""
    lines = []
    for x, letters in zip(graph, graph._descents):
        text, descents = graph.group.text(x), graph.group.set_text(letters)
        lines.append(f'"{text}" [descents="{descents}", label="{text}\\n{{{descents.strip("-")}}}"]')
    return dot("wgraph", lines + edges(graph))


def cell_order_text(order):
    """The order of cells as a DOT text. The second line of a label has the number of the elements."""
    group, lines = order.group, ["rankdir=BT", "node [shape=plaintext]"]
    for x, cell in order.cells.items():
        size = counted(len(cell), "element")
        lines.append(f'{name(group, x)} [label="{group.text(x)}\\n{size}"]')
    return dot("cells", lines + [f"{name(group, y)} -- {name(group, x)}" for x, y in order.edges()])


def name(group, element):
    """An element as a node of DOT: its normal form."""
    return f'"{group.text(element)}"'


def edges(graph):
    """The edges of a W-graph in DOT."""
    listed = []
    for x, y, value in graph.edges():
        line = f"{name(graph.group, x)} -- {name(graph.group, y)}"
        listed.append(line + (f" [label={value}]" if value != 1 else ""))
    return listed


def dot(title, lines):
    """A DOT text of an undirected graph."""
    return "".join([f"graph {title} {{\n", *(f"  {line}\n" for line in lines), "}\n"])


def save(text, path, graph=None):
    """Writes a picture into a file: the DOT text (.dot, .gv), or what graphviz draws (.svg, .png). Where there is no graphviz, a graph draws
    itself as SVG."""
    kind = os.path.splitext(path)[1].lower()
    if kind not in DRAWN and kind not in TEXTS:
        raise CoxeterError(f"{path}: the name of a picture ends in .dot, .gv, .svg or .png")
    if kind == ".svg" and graph is not None and shutil.which("dot") is None:
        drawn = graph.svg().encode("utf-8")
    else:
        drawn = draw(text, DRAWN[kind]) if kind in DRAWN else text.encode("ascii")
    with open(path, "wb") as out:
        out.write(drawn)


def draw(text, kind):
    """What graphviz makes of a DOT text, as bytes. `kind` is svg, png or another kind that it knows."""
    program = shutil.which("dot")
    if program is None:
        raise CoxeterError("the command `dot` of graphviz is not installed (Debian: the package graphviz)")
    ran = subprocess.run([program, f"-T{kind}"], input=text.encode("ascii"), capture_output=True)
    if ran.returncode:
        raise CoxeterError(f"dot failed: {ran.stderr.decode(errors='replace').strip()}")
    return ran.stdout


def svg(text):
    """What graphviz makes of a DOT text as SVG, None where it is not installed."""
    if shutil.which("dot") is None:
        return None
    drawn = draw(text, "svg").decode("utf-8")
    return drawn[drawn.index("<svg") :]
