"""How marks, names and what the program has told are shown: safe for a terminal, whatever students hand in."""

import csv
import json
import sys
import unicodedata

MOST_TOLD_LINES, MOST_TOLD_WIDTH, MOST_NAME_WIDTH, MOST_TOLD_NAMES = 12, 200, 32, 6
SIGNS = {"right": "+", "wrong": "-", "missing": ".", "misnamed": "~", "unfit": "!", "stopped": "?", "fault": "X"}


def shown(text, most=None):
    """A text of others, safe for a terminal and on one line."""
    if isinstance(text, bytes):
        text = text.decode("utf-8", "surrogateescape")
    pieces = []
    for letter in text:
        code = ord(letter)
        if 0xDC80 <= code <= 0xDCFF:
            pieces.append(f"\\x{code - 0xDC00:02x}")
        elif letter == "\\":
            pieces.append("\\\\")
        elif letter.isprintable() and not unicodedata.category(letter).startswith("M"):
            pieces.append(letter)
        else:
            pieces.append(letter.encode("unicode-escape").decode() if code > 0x7E else f"\\x{code:02x}")
    if most is not None and sum(map(len, pieces)) > most:
        while pieces and sum(map(len, pieces)) > most - 2:
            pieces.pop()
        pieces.append("..")
    return "".join(pieces)


def lines_shown(data):
    """The first lines of what the program has told."""
    lines = [shown(line, MOST_TOLD_WIDTH) for line in data.split(b"\n") if line]
    return lines[:MOST_TOLD_LINES] + ["..."] * (len(lines) > MOST_TOLD_LINES)


def told_names(names):
    """Some names in a sentence."""
    told = ", ".join(f"`{shown(name, MOST_NAME_WIDTH)}`" for name in names[:MOST_TOLD_NAMES])
    return told + f" and {len(names) - MOST_TOLD_NAMES} more" * (len(names) > MOST_TOLD_NAMES)


def print_reasons(name, marks, strangers, exercises):
    """What each answer of a student lacks, where one was handed in; once where that is the same of all."""
    if strangers:
        print(f"\n{shown(name, MOST_NAME_WIDTH)}: files of no exercise\n  {told_names(strangers)}")
        print("  expected NN-name.vsi or NN-name/answer.vsi, with the exercise's own number and name")
    if len(marks) > 1 and all(mark == marks[0] for mark in marks) and marks[0][0] == "unfit":
        exercises, marks = ["all"], marks[:1]
    for exercise, (mark, why) in zip(exercises, marks):
        if mark not in ("right", "missing"):
            print(f"\n{shown(name, MOST_NAME_WIDTH)}, {exercise}: {mark}")
            print("".join(f"  {line}\n" for line in why), end="")


def print_table(students, exercises, is_told):
    width = max([len("student"), *(len(shown(student.name, MOST_NAME_WIDTH)) for student, _, _ in students)])
    numbers = [exercise.name.split("-")[0][:2].rjust(2) for exercise in exercises]
    print("student".ljust(width), *numbers, "right")
    for student, marks, _ in students:
        name = student.name
        signs = [SIGNS[mark].rjust(2) for mark, _ in marks]
        print(shown(name, MOST_NAME_WIDTH).ljust(width), *signs, str(count_right(marks)).rjust(5))
    print("\n" + "  ".join(f"{sign} {mark}" for mark, sign in SIGNS.items()))
    for student, marks, strangers in students:
        if not is_told:
            marks = [pair if pair[0] == "misnamed" else ("missing", []) for pair in marks]
        print_reasons(student.name, marks, strangers, [exercise.name for exercise in exercises])


def count_right(marks):
    return sum(mark == "right" for mark, _ in marks)


def cell(text):
    """A cell that a table program would take for a formula begins with an apostrophe."""
    return "'" + text if text.startswith(("=", "+", "-", "@")) else text


def print_csv(students, exercises, points):
    """A row for each student: the name and the platform's number, the marks, the points, and their sum."""
    rows, names = csv.writer(sys.stdout, lineterminator="\n"), [exercise.name for exercise in exercises]
    rows.writerow(["student", "id", *names, *(f"{name} points" for name in names), "right", "points", "of"])
    for student, marks, _ in students:
        earned = [points if mark == "right" else 0 for mark, _ in marks]
        rows.writerow([cell(shown(student.name)), student.number, *(mark for mark, _ in marks), *earned,
                       count_right(marks), sum(earned), points * len(marks)])


def print_json(students, exercises):
    answers = [{"student": shown(student.name), "id": student.number, "right": count_right(marks),
                "unknown": list(map(shown, strangers)),
                "answers": {exercise.name: {"mark": mark, "why": why}
                            for exercise, (mark, why) in zip(exercises, marks)}}
               for student, marks, strangers in students]
    json.dump({"exercises": [exercise.name for exercise in exercises], "students": answers}, sys.stdout, indent=1)
    print()
