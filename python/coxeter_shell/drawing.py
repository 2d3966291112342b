"""A plain picture of a graph in layers, as SVG. It needs nothing but Python."""
import html

SIZE = 14  # of the letters
WIDE = 8.5  # of a letter
GAP = 24  # between two nodes of a layer
HIGH = 72  # from layer to layer


def layered(rows, edges):
    """The picture of some rows of nodes, the lowest first. A node is its name and its text, an edge two names and a text.

    >>> layered([[("e", "e")], [("1", "1")]], [("e", "1", "")]).count("<line")
    1
    """
    rows = sorted_rows(rows, edges)
    widths = [sum(len(text) * WIDE + GAP for _, text in row) for row in rows]
    whole, high = max(widths, default=0), HIGH * len(rows)
    at, nodes = {}, []
    for number, (row, width) in enumerate(zip(rows, widths)):
        x, y = (whole - width) / 2, high - HIGH * (number + 0.5)
        for name, text in row:
            half = (len(text) * WIDE + GAP) / 2
            at[name] = x + half, y
            nodes.append(f'<ellipse cx="{x + half:.1f}" cy="{y:.1f}" rx="{half - GAP / 4:.1f}" ry="{SIZE}" fill="white"/>')
            nodes.append(label(x + half, y, text))
            x += 2 * half
    lines = []
    for one, other, text in edges:
        (x1, y1), (x2, y2) = at[one], at[other]
        lines.append(f'<line x1="{x1:.1f}" y1="{y1:.1f}" x2="{x2:.1f}" y2="{y2:.1f}" stroke="gray"/>')
        if text:
            lines.append(label((x1 + x2) / 2, (y1 + y2) / 2, text))
    size = f'width="{whole:.0f}" height="{high}" viewBox="0 0 {whole:.0f} {high}"'
    font = f'font-family="sans-serif" font-size="{SIZE}" text-anchor="middle"'
    head = f'<svg xmlns="http://www.w3.org/2000/svg" {size} {font}>'
    return "\n".join([head, *lines, *nodes, "</svg>\n"])


def tikz(rows, edges):
    """The same picture as a text for LaTeX with the package tikz.

    >>> print(tikz([[("e", "e")], [("1", "1 {1}")]], [("e", "1", "2")]), end="")
    \\begin{tikzpicture}
      \\node (n0) at (0.00,0.0) {e};
      \\node (n1) at (0.00,1.5) {1 \\{1\\}};
      \\draw (n0) -- node[fill=white] {2} (n1);
    \\end{tikzpicture}
    """
    rows, names, lines = sorted_rows(rows, edges), {}, []
    for number, row in enumerate(rows):
        widths = [0.25 * len(text) + 0.5 for _, text in row]
        x = -sum(widths) / 2
        for (name, text), width in zip(row, widths):
            names[name] = f"n{len(names)}"
            lines.append(rf"\node ({names[name]}) at ({x + width / 2:.2f},{1.5 * number:.1f}) {{{in_latex(text)}}};")
            x += width
    for one, other, text in edges:
        middle = f"node[fill=white] {{{in_latex(text)}}} " if text else ""
        lines.append(rf"\draw ({names[one]}) -- {middle}({names[other]});")
    return "\n".join([r"\begin{tikzpicture}", *(f"  {line}" for line in lines), "\\end{tikzpicture}\n"])


def in_latex(text):
    """A text in LaTeX. The texts of pictures have letters, digits, dots, colons and braces."""
    return text.replace("{", r"\{").replace("}", r"\}")


def label(x, y, text):
    return f'<text x="{x:.1f}" y="{y + SIZE / 3:.1f}">{html.escape(text)}</text>'


def sorted_rows(rows, edges):
    """The rows, each sorted by where the neighbours in the rows below it stand, so that fewer edges cross."""
    joined = {}
    for one, other, _ in edges:
        joined.setdefault(one, []).append(other)
        joined.setdefault(other, []).append(one)
    place, made = {}, []
    for row in rows:
        means = {}
        for number, (name, _) in enumerate(row):
            below = [place[it] for it in joined.get(name, ()) if it in place]
            means[name] = sum(below) / len(below) if below else number / len(row)
        row = sorted(row, key=lambda node: means[node[0]])
        place.update((name, (number + 0.5) / len(row)) for number, (name, _) in enumerate(row))
        made.append(row)
    return made
