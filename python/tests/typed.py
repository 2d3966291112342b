"""What users write with type hints. checks/python has mypy judge it, and each line that it should refuse says so."""
from typing import Dict, List, Optional

from coxeter_shell import CoxeterGroup, ElementDict, KazhdanLusztigTable, Polynomial, Release, Table, Verdict, Word, check, gap


def lengths(group: CoxeterGroup, words: List[Word]) -> List[int]:
    return [group.length(w) for w in words]


def first(group: CoxeterGroup, w: Word) -> Word:
    return group.coatoms(w)[0] if group.length(w) else "e"


with CoxeterGroup("A", 3, timeout=60) as W:
    found: List[int] = lengths(W, ["12", (1, 2), [2, 1], range(1, 3), (), first(W, "12")])
    table: KazhdanLusztigTable = W.kazhdan_lusztig_table(["12"])
    row: ElementDict = table["12"]
    listed: Table = row
    p: Polynomial = W.kazhdan_lusztig_polynomial("e", (1, 2))
    verdict: Verdict = check(W.certificate("12"))
    text: str = gap(p)
    release: Optional[Release] = W.program.provenance().release
    names: Dict[str, int] = {W.text(x): len(x) for x in W.elements()}

    wrong: Word = 12  # type: ignore[assignment]
    W.length(None)  # type: ignore[arg-type]
    W.length({"1": 2})  # type: ignore[arg-type]
