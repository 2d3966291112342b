#!/usr/bin/env python3
"""Runs the notebook docs/EXAMPLES.ipynb, and compares what comes out of its cells with what stands in it.

    checks/notebook.py [PROGRAM]

It is run by nbclient, with a kernel of its own, or else by IPython alone, whichever this Python has; where it has neither, the
script says so and ends well. Of pictures it looks only whether they come, since they are drawn by graphviz where that is
installed. The exit status is 1 where something differs. With --write the outputs are written into the notebook instead. It is
no part of the gate.
"""
import importlib.util
import json
import os
import sys

from common import TOP, Count, program

NOTEBOOK = os.path.join(TOP, "docs", "EXAMPLES.ipynb")
PICTURE = "image/svg+xml"
# It comes beside where graphviz is installed.
DRAWN = "image/png"


def main():
    words = sys.argv[1:]
    write = "--write" in words
    os.environ["COXETER"] = program([it for it in words if it != "--write"])
    if importlib.util.find_spec("coxeter_shell") is None:
        path = os.path.join(TOP, "python")
        sys.path.insert(0, path)
        os.environ["PYTHONPATH"] = os.pathsep.join([path, *filter(None, [os.environ.get("PYTHONPATH")])])
    runners = {"nbclient": by_nbclient, "IPython": by_ipython}
    found = [name for name in runners if all(map(importlib.util.find_spec, NEEDED[name]))]
    if not found:
        print("the notebook is not run: neither nbclient nor IPython is installed")
        return
    with open(NOTEBOOK, encoding="utf-8") as source:
        notebook = json.load(source)
    cells = [it for it in notebook["cells"] if it["cell_type"] == "code"]
    made = runners[found[0]](notebook, cells)
    if write:
        for number, (cell, outputs) in enumerate(zip(cells, made), 1):
            cell["execution_count"], cell["outputs"] = number, [dict(it) for it in outputs]
            for output in cell["outputs"]:
                if "execution_count" in output:
                    output["execution_count"] = number
        with open(NOTEBOOK, "w", encoding="utf-8") as out:
            json.dump(notebook, out, indent=1, ensure_ascii=False)
            out.write("\n")
        return
    count = Count()
    for number, (cell, outputs) in enumerate(zip(cells, made), 1):
        count.check(f"docs/EXAMPLES.ipynb, cell {number}", list(map(plain, outputs)), list(map(plain, cell["outputs"])))
    print(f"run by {found[0]}: ", end="")
    count.end("cells of the notebook")


NEEDED = {"nbclient": ("nbclient", "nbformat", "ipykernel"), "IPython": ("IPython",)}


def by_nbclient(notebook, cells):
    """The outputs of the code cells, by a kernel."""
    import nbclient
    import nbformat

    ran = nbformat.reads(json.dumps(notebook), as_version=4)
    nbclient.NotebookClient(ran, timeout=600, kernel_name="python3").execute()
    return [it["outputs"] for it in ran["cells"] if it["cell_type"] == "code"]


def by_ipython(notebook, cells):
    """The outputs of the code cells, in this process."""
    from IPython.core.interactiveshell import InteractiveShell
    from IPython.utils.capture import capture_output

    shell, made, shown = InteractiveShell.instance(), [], []
    shell.display_trap.hook = shown.append
    for cell in cells:
        shown.clear()
        with capture_output() as said:
            shell.run_cell("".join(cell["source"])).raise_error()
        outputs = [{"output_type": "stream", "name": "stdout", "text": said.stdout}] if said.stdout else []
        for value in shown:
            if value is not None:
                data, metadata = shell.display_formatter.format(value)
                outputs.append({"output_type": "execute_result", "execution_count": None, "data": data, "metadata": metadata})
        made.append(outputs)
    return made


def plain(output):
    """What is compared of an output: its texts, and that a picture is one."""
    data = {"text": output["text"]} if "text" in output else output["data"]
    texts = {kind: it if isinstance(it, str) else "".join(it) for kind, it in data.items() if kind != DRAWN}
    return {kind: text[:4] if kind == PICTURE else text for kind, text in texts.items()}


if __name__ == "__main__":
    main()
