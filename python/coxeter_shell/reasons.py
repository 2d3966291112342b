"""Which of its causes a refusal has, in words with numbers."""
import math

from .certificates import MOST_OF_CERTIFICATE
from .errors import CoxeterError
from .program import MOST_OF_CONTEXT

# Commands that are for finite groups as a whole.
OF_THE_GROUP = ("lwgraph", "rwgraph", "lcells", "rcells", "lrcells", "module")


def detail(group, refusal):
    """Which cause the refusal of a question to a group has, or the empty text.

    >>> from coxeter_shell.errors import Refusal
    >>> detail(CoxeterGroup("a", 2), Refusal(31, "lcells"))
    'the group is infinite, and W-graphs, cells and their modules are for finite groups'
    """
    if refusal.number == 31:
        return of_size(group, refusal.line.split())
    if refusal.number == 16:
        how = "" if group.rank < 10 else ", with dots between them"
        return f"the letters of {group!r} are 1 to {group.rank}{how}"
    return ""


def of_size(group, words):
    """What is too large for a command."""
    context, count = group.program.options.get("context", MOST_OF_CONTEXT), group.cardinality()
    if words[0] in OF_THE_GROUP:
        if count == math.inf:
            return "the group is infinite, and W-graphs, cells and their modules are for finite groups"
        if count > context:
            return f"the group has {count:,} elements, and `context` allows {context:,}"
        return "the group has an element of more than 255 letters"
    if words[0] == "work":
        return f"there are more than {context:,} elements below one of the words, and `context` allows no more"
    if words[0] == "cert":
        try:
            size = sum(group.betti_numbers(words[1]))
            return f"there are {size:,} elements below {words[1]}, and a certificate has at most {MOST_OF_CERTIFICATE:,}"
        except CoxeterError:
            pass
    of = f" of {count:,}" if count < math.inf else ""
    return f"there are more than {context:,} elements{of} below {words[-1]}, and `context` allows no more"
