"""The commands of Coxeter 3 that the package has: what it makes of several answers of the program. They are not proved.

Each function gives the lines of an answer, in the forms of the manual.
"""
from .base import CELLS

# For each kind of cells the sides of the W-graphs whose descents are listed.
DESCENTS = {"left": ("left",), "right": ("right",), "two-sided": ("left", "right")}


def listed(items):
    """The lines of a list."""
    items = list(items)
    return [str(len(items)), *items]


def singular_locus(group, w):
    return listed(map(group.text, group.singular_locus(w)))


def singular_strata(group, w):
    return listed(f"{p}: {' '.join(map(group.text, found))}" for p, found in group.singular_strata(w).items())


def schubert(group, w):
    found = group.schubert(w)

    def row(name, values):
        return " ".join([name, *values])

    return [
        row("element", [group.text(found.element)]),
        row("dimension", [str(found.dimension)]),
        row("size", [str(found.size)]),
        row("descents L", [group.set_text(found.left_descents), "R", group.set_text(found.right_descents)]),
        row("coatoms", map(group.text, found.coatoms)),
        row("betti", map(str, found.betti_numbers)),
        row("ihbetti", map(str, found.intersection_betti_numbers)),
        row("rationally smooth", ["true" if found.is_rationally_smooth else "false"]),
        *(row(f"singular {p}:", map(group.text, some)) for p, some in found.singular_strata.items()),
    ]


def duflo(group):
    return listed(map(group.text, group.duflo_involutions()))


def cell_order(side):
    def lines(group):
        order = group.cell_order(side)
        covered = {name: [] for name in order}
        for name, lower in order.edges():
            covered[name].append(group.text(lower))
        return listed(" ".join([f"{group.text(name)}:", *lower]) for name, lower in covered.items())

    return lines


def two_sided_w_graph(group):
    return w_graph_lines(group, *(group.W_graph(side) for side in DESCENTS["two-sided"]))


def w_graph_lines(group, *graphs):
    """A W-graph as `lwgraph` lists it, with the descents of each of the graphs."""
    lines = []
    for vertex, *descents in zip(graphs[0].vertices.values(), *(graph._descents for graph in graphs)):
        edges = [f"{group.text(y)}:{value}" for y, value in vertex.edges.items()]
        lines.append(" ".join([group.text(vertex.element), *map(group.set_text, descents), *edges]))
    return listed(lines)


def cell_w_graphs(side):
    def lines(group):
        graphs = [group.W_graph(it) for it in DESCENTS[side]]
        cells = list(getattr(group, CELLS[side][0])())
        yield str(len(cells))
        for cell in cells:
            yield from w_graph_lines(group, *(graph.part(cell) for graph in graphs))

    return lines


# For each command how many words it takes, and what gives the lines.
COMMANDS = {
    "slocus": (1, singular_locus),
    "sstratification": (1, singular_strata),
    "schubert": (1, schubert),
    "duflo": (0, duflo),
    "lcorder": (0, cell_order("left")),
    "rcorder": (0, cell_order("right")),
    "lrcorder": (0, cell_order("two-sided")),
    "lrwgraph": (0, two_sided_w_graph),
    "lcwgraphs": (0, cell_w_graphs("left")),
    "rcwgraphs": (0, cell_w_graphs("right")),
    "lrcwgraphs": (0, cell_w_graphs("two-sided")),
}

# The command of the program that each is refused as.
REFUSED_AS = {name: "extremals" if words else "lwgraph" for name, (words, _) in COMMANDS.items()}

# What else Coxeter 3 has, and why it isn't here.
ABSENT = {
    "fullcontext": "it is not needed: what an answer needs is made when it is asked for",
    "interface": "the letters are 1 to 16, and answers have one form",
    "ordering": "the letters are numbered as in Bourbaki",
    "special": "there is no such command here",
    "author": "F. du Cloux wrote Coxeter 3; this is another program",
    "show": "how a polynomial is computed is not shown",
    "showmu": "how a value of mu is computed is not shown",
    "uneq": "there are equal parameters alone",
}
