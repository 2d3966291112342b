"""What the program answers to lines that ask for small groups, by the definitions alone (checks/definitions.py)."""
from definitions import BASE, coefficients, finite_group, labels_of


def word_text(rank, word, empty="e"):
    """A word, or a set of letters, as it is written in a group of this rank."""
    return ("" if rank < 10 else ".").join(map(str, word)) or empty


def terms_of(p):
    """The terms of a polynomial, each a degree and a coefficient other than 0, by rising degree."""
    return tuple((degree, c) for degree, c in enumerate(coefficients(p)) if c)


def polynomial_text(terms):
    """A polynomial as it is written, by its terms."""
    text = ""
    for degree, c in terms:
        power = "" if degree == 0 else "q" if degree == 1 else f"q^{degree}"
        number = str(c) if not power or abs(c) != 1 else "-" if c < 0 else ""
        text += ("+" if text and c > 0 else "") + number + power
    return text or "0"


def listed(items):
    """A list as it is written: how many items it has, and these."""
    return [str(len(items)), *items]


class Answers:
    """The answers of a group of rank up to 9: `text` gives that to a line. The group has all elements that are asked for, and those below
    them."""

    def __init__(self, group):
        self.group, self.rank = group, len(group.group.letters)

    def name(self, i):
        """The normal form of an element."""
        return word_text(self.rank, self.group.words[i])

    def set_text(self, letters):
        return word_text(self.rank, letters, "-")

    def graph(self, side):
        heads = (f"{self.name(x)} {self.set_text(letters)}" for x, letters in enumerate(side))
        tails = ("".join(f" {self.name(y)}:{value}" for y, value in edges.items()) for edges in self.group.edges)
        return listed([head + tail for head, tail in zip(heads, tails)])

    def cells(self, *sides):
        return listed([" ".join(map(self.name, cell)) for cell in self.group.cells(*sides)])

    def row(self, w, members):
        return listed([f"{self.name(x)}:{polynomial_text(terms_of(self.group.row(w)[x]))}" for x in members])

    def work(self, state, count):
        """The sums over the rows of generated words."""
        entries = degree = total = 0
        for _ in range(count):
            word = []
            for _ in range(12):
                state = (75 * state + 74) % 65537
                word.append(1 + state % self.rank)
            rows = [coefficients(p) for p in self.group.row(self.group.element(word)).values()]
            entries += len(rows)
            degree = max(degree, *(len(p) - 1 for p in rows))
            total += sum(map(sum, rows))
        return [f"words {count} entries {entries} degree {degree} sum {total % BASE}"]

    def whole(self, command):
        """The answer to a command on the whole group."""
        group = self.group
        sides = {"l": [group.lefts], "r": [group.rights], "lr": [group.lefts, group.rights]}
        if command.endswith("wgraph"):
            return self.graph(*sides[command[0]])
        return self.cells(*sides[command[: -len("cells")]])

    def one(self, command, w):
        """The answer to a command with one word."""
        group = self.group
        counts = [[i for i in group.below[w] if group.length[i] == k] for k in range(group.length[w] + 1)]
        if command == "klbasis":
            return self.row(w, group.below[w])
        if command == "extremals":
            return self.row(w, group.extremals(w))
        if command == "ihbetti":
            found = coefficients(group.betti(w))
            return [" ".join(map(str, found + [0] * (len(counts) - len(found))))]
        return {
            "compute": lambda: [self.name(w)],
            "length": lambda: [str(group.length[w])],
            "inverse": lambda: [self.name(group.inverse[w])],
            "descent": lambda: [f"L {self.set_text(group.lefts[w])} R {self.set_text(group.rights[w])}"],
            "coatoms": lambda: listed([self.name(i) for i in counts[-2]] if w else []),
            "betti": lambda: [" ".join(str(len(level)) for level in counts)],
        }[command]()

    def two(self, command, y, w):
        """The answer to a command with two words."""
        group = self.group
        if command in ("rpol", "pol", "invpol"):
            row = {"rpol": group.r_polynomials.__getitem__, "pol": group.row, "invpol": group.inverse_row}[command](w)
            return [polynomial_text(terms_of(row.get(y, 0)))]
        return {
            "inorder": lambda: ["true" if y in group.below[w] else "false"],
            "interval": lambda: listed([self.name(x) for x in group.below[w] if y in group.below[x]]),
            "mu": lambda: [str(group.mu(y, w))],
        }[command]()

    def text(self, line):
        """The answer to a line that is accepted: a command on words, or on the group."""
        command, *arguments = line.split()
        if command == "work":
            lines = self.work(*map(int, arguments))
        else:
            words = [self.group.element([] if it == "e" else list(map(int, it))) for it in arguments]
            lines = (self.whole, self.one, self.two)[len(words)](command, *words)
        return "".join(f"{it}\n" for it in lines)


def rank_and_labels(line):
    """The rank of the group that a line with `type` or `matrix` sets, and its labels above the diagonal."""
    command, first, *others = line.split()
    if command == "type":
        return int(others[0]), labels_of(first, int(others[0]))
    return int(first), tuple(map(int, others))


def example(text):
    """A script and what answers it, as bytes. Behind a line that is refused stands its answer, after a bar. `jobs`, `next` and `end` are
    answered nothing, and the lines of a list as outside."""
    answering, script, answers, ended = None, "", "", False
    for line in text.splitlines():
        line, _, refusal = line.partition(" | ")
        script += f"{line}\n"
        ended = ended or (line == "quit" and not refusal)
        if ended or line.strip() in ("", *(() if refusal else ("jobs", "next", "end"))):
            continue
        if refusal:
            answers += f"{refusal}\n"
        elif line.startswith(("type ", "matrix ")):
            answering = Answers(finite_group(*rank_and_labels(line)))
        else:
            answers += answering.text(line)
    return script.encode(), answers.encode()
