"""The requests of the page: their fields, and the runs of the program that answer them."""

from __future__ import annotations

import json
import re
import urllib.parse
from typing import Any, Callable, NamedTuple

from running import Room, make_image
from votes import VOTER, VOTES

MOST_BUDGET, MOST_TRIES, MOST_SEED = 1_000_000, 10_000, (1 << 64) - 1
MOST_WARNINGS = 200
# These requests take some milliseconds, whatever the text does when it runs. All others wait for them.
SHORT = {"check", "classes", "explain", "fmt", "lattice"}
NAME = re.compile(r"[A-Za-z][A-Za-z0-9_]{0,31}", re.ASCII)
PROFILES = {"base": [], "strict": ["--strict"], "steady": ["--steady"]}
WARNING = re.compile(r"\d+:\d+ warning: ", re.ASCII)
SUBJECT = re.compile(r"language|lattice|store|interface|classes|profiles|[1-9]\d?", re.ASCII)


class BadRequest(Exception):
    """A request that is none of the server's own, with its status and a sentence for the answer."""

    def __init__(self, status: int, why: str) -> None:
        super().__init__(why)
        self.status, self.why = status, why


class Exercise(NamedTuple):
    """One exercise: what the page shows of it, and the files by which the program marks an answer."""

    shown: dict[str, Any]
    files: dict[str, bytes]


# ---- The requests -----------------------------------------------------------------------------------------------

Body = dict[str, Any]


def loops(body: Body) -> "list[str]":
    """The profile for the subcommands that know --strict alone."""
    return [] if body["profile"] == "base" else ["--strict"]


def chosen(body: Body, *names: str) -> "list[str]":
    """The flags that the request has set."""
    return [f"--{name}" for name in names if body[name]]


def check(room: Room, body: Body) -> Body:
    """The verdict as JSON and, where it is a refusal, with its explanation; and the warnings."""
    profile = PROFILES[body["profile"]]
    ran = room.run("check", "lattice.toml", "text.vsi", "--json", "--warnings", *profile)
    whole = ["--explain", "--all", *profile]
    explained = room.run("check", "lattice.toml", "text.vsi", *whole) if ran.status == 1 else None
    lines = ran.errors.decode("utf-8", "replace").split("\n")
    return ran.answer(explained=explained.errors.decode("utf-8", "replace") if explained else "",
                      warnings=[line for line in lines if WARNING.match(line)][:MOST_WARNINGS])


def classes_of(room: Room, body: Body) -> Body:
    """The class of each declaration."""
    return room.run("classes", "lattice.toml", "text.vsi", *loops(body)).answer()


def flows(room: Room, body: Body) -> Body:
    """Each pair of declared variables that a chain of flows joins, with the steps of the chain."""
    return room.run("flows", "lattice.toml", "text.vsi", "--walks", *loops(body)).answer()


def draw(room: Room, _: Body) -> Body:
    """The lattice as a graph."""
    return room.run("draw", "lattice.toml", "--explain").answer()


def fmt(room: Room, _: Body) -> Body:
    """The layout of the text, with its comments."""
    return room.run("fmt", "--keep-comments", "text.vsi", "--explain").answer()


def explain(room: Room, body: Body) -> Body:
    """The page of a refusal or of a subject."""
    return room.run("explain", body["subject"]).answer()


def leak(room: Room, body: Body) -> Body:
    """A search for two runs that an observer can tell apart."""
    only = [f"--class={body['class']}"] if body["class"] else []
    return room.run("leak", "lattice.toml", "text.vsi", f"--budget={body['budget']}", f"--tries={body['tries']}",
                    f"--seed={body['seed']}", *only, *chosen(body, "endings", "steps")).answer()


def on_image(*arguments: str) -> "Callable[[Room, Body], Body]":
    """A request that first makes the image of the text; `{class}` and `{budget}` are the request's."""
    def work(room: Room, body: Body) -> Body:
        made = make_image(room)
        if made.status != 0:
            return made.answer()
        return room.run(*(part.format_map(body) for part in arguments)).answer()
    return work


def drive(room: Room, body: Body) -> Body:
    """The cycles of a controller, one for each line."""
    made = make_image(room)
    if made.status != 0:
        return made.answer()
    return room.run("drive", "lattice.toml", "image", f"--class={body['class']}", f"--budget={body['budget']}",
                    "--store", "store.toml", given="lines").answer()


def monitor(room: Room, body: Body) -> Body:
    """A monitored run of the text."""
    return room.run("monitor", "lattice.toml", "text.vsi", f"--budget={body['budget']}", "--store",
                    "store.toml").answer()


def together(room: Room, body: Body) -> Body:
    """Two runs of the text in step."""
    return room.run("compare", "--steps", "lattice.toml", "text.vsi", f"--class={body['class']}",
                    f"--budget={body['budget']}", "--store", "store.toml", "--store", "other.toml").answer()


def audit(room: Room, body: Body) -> Body:
    """Whether the image is accepted by itself."""
    made = make_image(room)
    return room.run("audit", "lattice.toml", "image", "--explain", *PROFILES[body["profile"]]).answer() \
        if made.status == 0 else made.answer()


def report(room: Room, body: Body) -> Body:
    """The page of a text."""
    return room.run("report", "lattice.toml", "text.vsi", *loops(body)).answer()


def conform(room: Room, body: Body) -> Body:
    """Marks an answer to an exercise: by `conform`, by the texts of a policy, or by two runs."""
    exercise = body["exercise"]
    for name, data in exercise.files.items():
        room.put(name, data)
    kind = exercise.shown["kind"]
    if kind == "text":
        return room.run("conform", "interface.toml", "text.vsi").answer()
    if kind == "policy":
        texts = []
        for name in sorted(name for name in exercise.files if name.endswith(".vsi")):
            ran = room.run("check", "lattice.toml", name)
            texts.append(ran.answer(name=name))
        return {"status": 0, "output": "", "errors": "", "stopped": None, "texts": texts}
    made = make_image(room, "two.toml", "broken.vsi")
    if made.status != 0:
        return made.answer()
    budget = exercise.files["budget.txt"].decode().strip() if "budget.txt" in exercise.files else body["budget"]
    return room.run("compare", "two.toml", "image", "--class=L", f"--budget={budget}", "--unbounded",
                    "--store", "store.toml", "--store", "other.toml").answer()


FILES = {"text": "text.vsi", "lattice": "lattice.toml", "store": "store.toml", "other": "other.toml", "lines": "lines"}
OPTIONAL: Body = {"profile": "base", "class": "", "endings": False, "steps": False, "tries": 300, "seed": 0,
                  "voter": "", "vote": ""}
REQUESTS: "dict[str, tuple[tuple[str, ...], tuple[str, ...], Callable[[Room, Body], Body]]]" = {
    "check": (("text", "lattice"), ("profile",), check),
    "classes": (("text", "lattice"), ("profile",), classes_of),
    "flows": (("text", "lattice"), ("profile",), flows),
    "lattice": (("lattice",), (), draw),
    "fmt": (("text",), (), fmt),
    "explain": (("subject",), (), explain),
    "leak": (("text", "lattice", "budget"), ("class", "tries", "seed", "endings", "steps"), leak),
    "list": (("text", "lattice"), (), on_image("list", "image")),
    "source": (("text", "lattice"), (), on_image("source", "image")),
    "audit": (("text", "lattice"), ("profile",), audit),
    "run": (("text", "lattice", "store", "budget"), (),
            on_image("run", "image", "--budget={budget}", "--store", "store.toml", "--count", "--explain")),
    "trace": (("text", "lattice", "store", "budget"), (),
              on_image("run", "image", "--budget={budget}", "--store", "store.toml", "--trace")),
    "view": (("text", "lattice", "store", "budget", "class"), (),
             on_image("view", "lattice.toml", "image", "--class={class}", "--budget={budget}", "--store",
                      "store.toml")),
    "compare": (("text", "lattice", "store", "other", "budget", "class"), (),
                on_image("compare", "lattice.toml", "image", "--class={class}", "--budget={budget}", "--unbounded",
                         "--store", "store.toml", "--store", "other.toml")),
    "together": (("text", "lattice", "store", "other", "budget", "class"), (), together),
    "monitor": (("text", "lattice", "store", "budget"), (), monitor),
    "drive": (("text", "lattice", "store", "lines", "budget", "class"), (), drive),
    "conform": (("exercise",), ("text", "lattice", "store", "other", "budget"), conform),
}
# The request that runs nothing: a vote, or none, and the answer is how many there are.
VOTE = (("text", "lattice", "profile"), ("voter", "vote"))


class Reader:
    """Reads the fields of requests, each by the kind that its name has."""

    def __init__(self, exercises: "dict[str, Exercise]") -> None:
        self.exercises = exercises

    def field(self, name: str, value: Any) -> Any:
        """The value of a field, or BadRequest."""
        if name in FILES and isinstance(value, str):
            return value
        if name in ("endings", "steps") and isinstance(value, bool):
            return value
        if name == "profile" and isinstance(value, str) and value in PROFILES:
            return value
        if name == "class" and isinstance(value, str) and NAME.fullmatch(value):
            return value
        pattern = {"subject": SUBJECT, "voter": VOTER}.get(name)
        if pattern and isinstance(value, str) and pattern.fullmatch(value) or name == "vote" and value in VOTES:
            return value
        if name == "exercise" and isinstance(value, str) and value in self.exercises:
            return self.exercises[value]
        most = {"budget": MOST_BUDGET, "tries": MOST_TRIES, "seed": MOST_SEED}.get(name)
        if most is not None and type(value) is int and 0 <= value <= most:
            return value
        raise BadRequest(400, f"the field {name} isn't as this request needs it" if name in FIELDS else "unknown field")

    def body(self, request: str, data: bytes) -> Body:
        """The fields of a request from its JSON."""
        required, optional = VOTE if request == "votes" else REQUESTS[request][:2]
        try:
            found = json.loads(data.decode("utf-8"), parse_constant=refuse_constant, parse_int=short_integer)
        except (ValueError, RecursionError):
            raise BadRequest(400, "the body is no JSON in UTF-8") from None
        if not isinstance(found, dict) or not set(required) <= set(found) <= {*required, *optional}:
            raise BadRequest(400, "the body hasn't the fields of this request")
        body = {**OPTIONAL, **{name: self.field(name, value) for name, value in found.items()}}
        if bool(body["vote"]) != bool(body["voter"]):
            raise BadRequest(400, "a vote needs its voter")
        if request == "conform":
            lacking = set(body["exercise"].shown["needs"]) - set(found)
            if lacking:
                raise BadRequest(400, "the answer lacks " + ", ".join(sorted(lacking)))
        try:
            for name in FILES:
                body.get(name, "").encode("utf-8")
        except UnicodeEncodeError:
            raise BadRequest(400, "a text is no UTF-8") from None
        return body

    def form(self, data: bytes) -> Body:
        """The fields of the report from a form."""
        try:
            pairs = urllib.parse.parse_qs(data.decode("ascii"), keep_blank_values=True, strict_parsing=True,
                                          errors="strict", max_num_fields=3)
        except ValueError:
            raise BadRequest(400, "the body is no form") from None
        if set(pairs) != {"text", "lattice", "profile"} or any(len(values) != 1 for values in pairs.values()):
            raise BadRequest(400, "the form hasn't the fields of a report")
        # A browser sends each line end of a field as CR LF, whatever the text has.
        return {name: self.field(name, values[0].replace("\r\n", "\n")) for name, values in pairs.items()}


FIELDS = {*FILES, *OPTIONAL, "subject", "exercise", "budget"}


def refuse_constant(_: str) -> Any:
    """Refuses NaN and the infinities."""
    raise ValueError("no such number in JSON")


def short_integer(digits: str) -> int:
    """An integer of JSON; longer ones fit no field."""
    if len(digits) > 21:
        raise ValueError("too many digits")
    return int(digits)
