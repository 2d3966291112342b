"""Lists of jobs: many lines at once, in blocks, which the program may answer side by side."""
from __future__ import annotations

import collections
import itertools
import operator
from typing import Any, Iterable, Iterator, List

from . import progress, texts
from .base import Base
from .errors import JobRefusal, Refusal
from .polynomial import Polynomial
from .program import MOST_OF_BLOCKS, MOST_OF_JOBS, check_job

# So many lines of blocks fit into a list, since each has a mark behind it.
MOST_OF_LINES = MOST_OF_JOBS // 2

Short = collections.namedtuple("Short", "command words read")
Short.__doc__ = """What a method with a short answer asks: the command, its number of words, and what gives for a group the function that reads the
line of its answer, or None where that is a list of elements."""

SHORT = {
    "coatoms": Short("coatoms", 1, None),
    "normal_form": Short("compute", 1, lambda group: group._spelling.element),
    "length": Short("length", 1, lambda group: texts.number),
    "inverse": Short("inverse", 1, lambda group: group._spelling.element),
    "descents": Short("descent", 1, lambda group: group._read_descents),
    "left_descents": Short("descent", 1, lambda group: lambda text: group._read_descents(text)[0]),
    "right_descents": Short("descent", 1, lambda group: lambda text: group._read_descents(text)[1]),
    "betti_numbers": Short("betti", 1, lambda group: texts.numbers),
    "intersection_betti_numbers": Short("ihbetti", 1, lambda group: texts.numbers),
    "bruhat_le": Short("inorder", 2, lambda group: texts.truth),
    "r_polynomial": Short("rpol", 2, lambda group: Polynomial.read),
    "kazhdan_lusztig_polynomial": Short("pol", 2, lambda group: Polynomial.read),
    "inverse_kazhdan_lusztig_polynomial": Short("invpol", 2, lambda group: Polynomial.read),
    "mu_coefficient": Short("mu", 2, lambda group: texts.whole_number),
}

Job = collections.namedtuple("Job", "block index line")


class Answers(list):
    """The answers to some blocks: for each block a list, with the lines of the answer to each of its lines, or a JobRefusal.

    >>> answers = CoxeterGroup("A", 3).jobs([["pol 2 2132", "length 4"], ["coatoms 121"]])
    >>> answers[0][0], answers[1][0], [(it.block, it.index, it.number) for it in answers.refusals]
    (['1+q'], ['2', '12', '21'], [(0, 1, 16)])
    """

    @property
    def refusals(self) -> List[Refusal]:
        """The refused lines, in their order."""
        return [answer for block in self for answer in block if isinstance(answer, Refusal)]


class Jobs(Base):
    """The methods of a group that ask lines in blocks."""

    def jobs(self, blocks: Iterable[Iterable[str]]) -> Answers:
        """The answers to the lines of some blocks, which are lists of lines as the program reads them: for each block a list, with the
        lines of each answer. A line that is refused does not cost the other answers: a JobRefusal stands in the place of its own, and
        tells which block and which line it is. `.refusals` of the answers has them all.

        The program is given as many blocks at once as it takes, by its commands `jobs`, `next` and `end`. It answers each line as it
        would alone.

        >>> CoxeterGroup("A", 3).jobs([["pol 2 2132", "mu 2 2132"], ["interval 12 1232"], []])
        [[['1+q'], ['1']], [['4', '12', '123', '132', '1232']], []]
        """
        return Answers(self.iter_jobs(blocks))

    def iter_jobs(self, blocks: Iterable[Iterable[str]]) -> Iterator[List[Any]]:
        """The same block by block.

        >>> next(CoxeterGroup("A", 3).iter_jobs([["length 12", "length 1"], ["length 123"]]))
        [['2'], ['1']]
        """
        blocks = [read_block(number, block) for number, block in enumerate(blocks)]
        found = self._job_answers(blocks)
        return progress.shown(found, len(blocks), "jobs") if self._watch() else found

    def _answers_of(self, method, words):
        """The list of what a method of one word answers for many words, asked as lists of jobs."""
        words = list(words)
        if len(words) < 2:
            return [getattr(self, method)(word) for word in words]
        short = SHORT[method]
        return self._answers_to(short.read and short.read(self), [self._line(short.command, (word,)) for word in words])

    def _answers_to(self, read, lines):
        """The list of the answers to many lines, asked as lists of jobs. `read` reads the line of an answer, and is None where it is a list
        of elements."""
        return list(self._iter_answers_to(read, lines))

    def _iter_answers_to(self, read, lines):
        """The same, as an iterator. What is refused is raised behind the answers before it."""
        # The blocks of a list are answered side by side where there are workers for them.
        size = MOST_OF_LINES // MOST_OF_BLOCKS if self.program.options.get("workers", 1) > 1 else MOST_OF_LINES
        self._watch()
        found = self._job_answers([lines[at : at + size] for at in range(0, len(lines), size)])
        return (self._one_of(read, line, it) for line, it in zip(lines, itertools.chain.from_iterable(found)))

    def _mapped(self, method, items):
        """The answers of a method that is in SHORT, for items that have its words each, as an iterator: asked as lists of jobs, small ones first, so
        that the first answers come soon. What is wrong is raised behind the answers before it."""
        short, items, size = SHORT[method], iter(items), 1
        read, wrong = short.read and short.read(self), None
        some = list(itertools.islice(items, size))
        while some and wrong is None:
            lines = []
            for words in some:
                try:
                    line = self._line(short.command, words)
                    check_job(line)
                except Exception as error:
                    wrong = error
                    break
                lines.append(line)
            yield from self._iter_answers_to(read, lines)
            size = min(4 * size, MOST_OF_LINES)
            some = list(itertools.islice(items, size))
        if wrong is not None:
            raise wrong

    def _normal_forms(self, words):
        """The elements of many words."""
        return self._answers_of("normal_form", words)

    def _normal_among(self, words):
        """Those of some words, which are tuples, that are normal forms, as an iterator."""
        words = iter(words)
        some = list(itertools.islice(words, MOST_OF_LINES))
        while some:
            yield from (word for word, normal in zip(some, self._normal_forms(some)) if word == normal)
            some = list(itertools.islice(words, MOST_OF_LINES))

    def _one_of(self, read, line, answer):
        """An answer of a list of jobs, read. Where the line was refused, that is raised as it is for the line alone."""
        if isinstance(answer, Refusal):
            raise self._shown(Refusal(answer.number, line))
        if read is None:
            return self._read(lambda it: self._items(self._spelling.element, it), line, answer)
        return self._line_of(read, line, answer)

    def _job_answers(self, blocks):
        answers = [[line if isinstance(line, Refusal) else None for line in block] for block in blocks]
        asked = [Job(b, k, blocks[b][k]) for b, block in enumerate(answers) for k, answer in enumerate(block) if answer is None]
        done = 0
        for some in lists(asked):
            # The blocks before the first one that is asked for now have all their answers.
            yield from answers[done : some[0].block]
            done = some[0].block
            pieces = [list(it) for _, it in itertools.groupby(some, operator.attrgetter("block"))]
            found = self.program.ask_list([[job.line for job in piece] for piece in pieces])
            for job, lines in zip(some, itertools.chain.from_iterable(found)):
                number = self.program.refusal(lines, job.line)
                answers[job.block][job.index] = lines if number is None else JobRefusal(number, job.line, job.block, job.index)
        yield from answers[done:]


def read_block(number, block):
    """The lines of a block. In the place of one that may not be sent stands its refusal."""
    if isinstance(block, (str, bytes)) or not hasattr(block, "__iter__"):
        raise TypeError(f"a block is a list of lines, and not {block!r}")
    lines = []
    for index, line in enumerate(block):
        try:
            check_job(line)
        except Refusal as refusal:
            line = JobRefusal(refusal.number, line, number, index)
        lines.append(line)
    return lines


def lists(jobs):
    """The same jobs in parts of as many blocks and lines as a list may have."""
    some, blocks = [], set()
    for job in jobs:
        blocks.add(job.block)
        if len(some) == MOST_OF_LINES or len(blocks) > MOST_OF_BLOCKS:
            yield some
            some, blocks = [], {job.block}
        some.append(job)
    if some:
        yield some
