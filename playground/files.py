"""The files of the page, with the exercises and the examples; nothing else is ever opened for a request."""

from __future__ import annotations

import json
import os
import re
from typing import Any, Optional

from answering import Exercise

HERE = os.path.dirname(os.path.realpath(__file__))
KINDS = {".html": "text/html; charset=utf-8", ".css": "text/css; charset=utf-8", ".svg": "image/svg+xml",
         ".js": "text/javascript; charset=utf-8", ".json": "application/json"}
# The kinds of files in the folder of the documentation.
OF_DOCS = {**KINDS, ".png": "image/png", ".txt": "text/plain; charset=utf-8"}
# Where the archive has the documentation, and where Debian's package has it.
DOCS = [os.path.join(HERE, "..", "docs", "html"), os.path.join(HERE, "..", "..", "doc", "vsi", "docs", "html")]


def text_of(path: str) -> str:
    """The text of a file."""
    with open(path, encoding="utf-8") as file:
        return file.read()


def read_examples(folder: str) -> "list[dict[str, Any]]":
    """The examples: each folder with its texts, lattice files and store files."""
    found = []
    for name in sorted(os.listdir(folder)):
        inside = os.path.join(folder, name)
        if os.path.isdir(inside):
            files = {file: text_of(os.path.join(inside, file)) for file in sorted(os.listdir(inside))
                     if file.endswith((".vsi", ".toml", "_day.txt"))}
            found.append({"name": name, "files": files})
    return found


def read_exercise(folder: str) -> Optional[Exercise]:
    """One exercise, by what its folder has; nothing if it is none."""
    files: "dict[str, bytes]" = {}
    for inside, prefix in (("", ""), ("accepted", "accepted_"), ("refused", "refused_"), ("start", "start_")):
        path = os.path.join(folder, inside)
        for name in sorted(os.listdir(path)) if os.path.isdir(path) else ():
            if name.endswith((".toml", ".vsi", ".txt")):
                with open(os.path.join(path, name), "rb") as file:
                    files[prefix + name] = file.read()
    kind, needs = ("text", ["text"]) if "interface.toml" in files else ("leak", ["store", "other"])
    if kind == "leak" and "budget.txt" not in files:
        needs.append("budget")
    if "start.toml" in files:
        kind, needs = "policy", ["lattice"]
    elif kind == "leak" and "broken.vsi" not in files:
        return None
    lattices = [name for name, data in sorted(files.items())
                if b"below" in data and name.endswith(".toml") and name not in ("build.toml", "interface.toml")]
    shown = {"name": os.path.basename(folder), "kind": kind, "needs": needs, "lattice": (lattices + [""])[0],
             "task": text_of(os.path.join(folder, "task.md")),
             "files": {name: data.decode() for name, data in files.items()}}
    return Exercise(shown, files)


def read_exercises(folder: str) -> "dict[str, Exercise]":
    """The exercises by their names, without answers: `solution` and `wrong` are never read."""
    read = {name: read_exercise(os.path.join(folder, name)) for name in sorted(os.listdir(folder))
            if re.match(r"\d\d-", name)}
    return {name: exercise for name, exercise in read.items() if exercise}


def read_docs(docs: Optional[str]) -> "dict[str, tuple[str, bytes]]":
    """Each path of the documentation, from a folder that is given or where it has been made; `tools/site` makes it."""
    files = {}
    for top in [folder for folder in ([docs] if docs else DOCS) if os.path.isdir(folder)][:1]:
        for at, _, names in os.walk(top):
            for name in names:
                kind = OF_DOCS.get(os.path.splitext(name)[1])
                path = os.path.join(at, name)
                if kind:
                    with open(path, "rb") as file:
                        files["/docs/" + os.path.relpath(path, top).replace(os.sep, "/")] = (kind, file.read())
        files["/docs/"] = files["/docs/index.html"]
    return files


def read_page(exercises: "dict[str, Exercise]", is_lesson: bool,
              docs_folder: Optional[str] = None) -> "dict[str, tuple[str, bytes]]":
    """Each path that the server has, with its type and its bytes; no other file is ever opened for a request."""
    files = {}
    for name in sorted(os.listdir(HERE)):
        kind = KINDS.get(os.path.splitext(name)[1])
        if kind:
            with open(os.path.join(HERE, name), "rb") as file:
                files["/" + name] = (kind, file.read())
    docs = read_docs(docs_folder)
    if docs:
        kind, page = files["/index.html"]
        files["/index.html"] = (kind, page.replace(b'id="docs" hidden', b'id="docs"'))
    files["/"] = files["/index.html"]
    files.update(docs)
    made = {"/exercises.json": [exercise.shown for exercise in exercises.values()],
            "/examples.json": read_examples(os.path.join(HERE, "..", "examples")), "/lesson.json": is_lesson}
    for path, value in made.items():
        files[path] = ("application/json", json.dumps(value).encode())
    return files
