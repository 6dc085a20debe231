"""Runs a notebook's code cells in order, without Jupyter, and compares what they show with the outputs that are kept in it.

    notebook.py NOTEBOOK [--keep] [--without PACKAGE]...

--keep puts what they show into the notebook. --without runs it as if the package were not installed. A cell says in its metadata what it
shows then, or which sentence it raises; all others must show the same as ever. Of a picture only the size is compared.
"""

import ast
import base64
import contextlib
import io
import json
import os
import struct
import sys
from typing import Any, Dict, List

Output = Dict[str, Any]


def figures() -> List[bytes]:
    """The pictures that the cell has drawn, as PNG."""
    plt = sys.modules.get("matplotlib.pyplot")
    drawn = []
    for number in plt.get_fignums() if plt else []:
        picture = io.BytesIO()
        plt.figure(number).savefig(picture, format="png", bbox_inches="tight", metadata={"Software": None})
        drawn.append(picture.getvalue())
    if plt:
        plt.close("all")
    return drawn


def as_lines(text: str) -> List[str]:
    return text.splitlines(keepends=True)


def shown(source: str, names: Dict[str, Any], count: int) -> List[Output]:
    """What the cell shows: what it prints, its pictures, and the value of its last expression."""
    body = ast.parse(source).body
    last = ast.Expression(body.pop().value) if body and isinstance(body[-1], ast.Expr) else None
    printed = io.StringIO()
    with contextlib.redirect_stdout(printed):
        exec(compile(ast.Module(body, []), "cell", "exec"), names)
        value = eval(compile(last, "cell", "eval"), names) if last else None
    outputs: List[Output] = []
    if printed.getvalue():
        outputs.append({"name": "stdout", "output_type": "stream", "text": as_lines(printed.getvalue())})
    for picture in figures():
        data = {"image/png": base64.b64encode(picture).decode() + "\n", "text/plain": ["<Figure>"]}
        outputs.append({"data": data, "metadata": {}, "output_type": "display_data"})
    if value is not None:
        data = {"text/plain": as_lines(repr(value))}
        if hasattr(value, "_repr_html_"):
            data["text/html"] = as_lines(value._repr_html_())
        outputs.append({"data": data, "execution_count": count, "metadata": {}, "output_type": "execute_result"})
    return outputs


def text_of(output: Output) -> str:
    """By what two outputs are compared."""
    data = output.get("data", {})
    if "image/png" in data:
        width, height = struct.unpack(">II", base64.b64decode(data["image/png"])[16:24])
        return f"a picture of {width // 10} by {height // 10} tens of pixels"
    return "".join(output.get("text") or data["text/plain"])


def compared(cell: Dict[str, Any], names: Dict[str, Any], missing: List[str]) -> List[str]:
    """What the cell should show, and what it does."""
    without = [words for package, words in cell["metadata"].get("without", {}).items() if package in missing]
    wanted = without or [text_of(output) for output in cell["outputs"]]
    try:
        came = [text_of(output) for output in shown("".join(cell["source"]), names, 0)]
    except ImportError as error:
        came = [str(error)]
    return [] if came == wanted else ["the cell", *cell["source"], "\nshould show", *wanted, "\nand shows", *came]


def main(path: str, keep: bool, missing: List[str]) -> int:
    with open(path, encoding="utf-8") as file:
        notebook = json.load(file)
    for package in missing:
        sys.modules[package] = None  # type: ignore
    cells = [cell for cell in notebook["cells"] if cell["cell_type"] == "code"]
    folder = os.getcwd()
    os.chdir(os.path.dirname(path) or ".")
    names: Dict[str, Any] = {"__name__": "__main__"}
    differences: List[str] = []
    for count, cell in enumerate(cells, 1):
        if keep:
            cell.update(execution_count=count, outputs=shown("".join(cell["source"]), names, count))
        else:
            differences += compared(cell, names, missing)
    os.chdir(folder)
    if keep:
        with open(path, "w", encoding="utf-8") as file:
            file.write(json.dumps(notebook, indent=1, ensure_ascii=False) + "\n")
    print(*differences, f"{len(cells)} cells", sep="\n")
    return 1 if differences or not cells else 0


if __name__ == "__main__":
    os.environ["MPLBACKEND"] = "Agg"
    words = sys.argv[2:]
    sys.exit(main(sys.argv[1], "--keep" in words, [word for word in words if not word.startswith("--")]))
