"""What students have handed in, as folders of plain files: unpacked, if it came as a zip or as the playground's file.

A learning platform exports a folder or a zip. Moodle's has a folder for each student, `NAME_NUMBER_assignsubmission_file`.
Canvas's has all students' files side by side, `name_NUMBER_NUMBER_FILE`, with `LATE` before the numbers where they came
late. Both numbers are the platform's; the first is the student's id.
"""

import json
import os
import re
import stat
import zipfile

MOST_FILE, MOST_BYTES, MOST_FILES, MOST_DEPTH = 1_048_576, 64_000_000, 5_000, 6
MOST_PACKED = 256_000_000
MOODLE = re.compile(rb"(?P<name>.+)_(?P<id>[0-9]+)_assignsubmission_[a-z]+_?\Z", re.S)
CANVAS = re.compile(rb"(?P<name>[^_]+)(?:_LATE)?_(?P<id>[0-9]+)_[0-9]+_(?P<file>.+)\Z", re.S)
# Canvas numbers the files that are handed in once more.
AGAIN = re.compile(rb"(?P<stem>.+?)-[0-9]+(?P<suffix>\.[A-Za-z]+)\Z", re.S)
PACKED = (b".zip", b".json")


class Unread(Exception):
    """What was handed in can't be unpacked."""


class Student:
    """One student: the name that is shown, the platform's number, if there is one, and the paths of what was handed in,
    each with the name that it has for the student."""

    def __init__(self, name, number, paths):
        self.name, self.number, self.paths = name, number, paths


def is_plain(path):
    return stat.S_ISREG(os.lstat(path).st_mode)


def is_folder(path):
    return stat.S_ISDIR(os.lstat(path).st_mode)


def students_in(folder):
    """The students of a class, by name: each entry of the folder is one, but files of one student, as Canvas names them,
    are one together."""
    found, together = [], {}
    for name in sorted(os.listdir(folder)):
        path = os.path.join(folder, name)
        if name.startswith(b".") or name == b"__MACOSX":
            continue
        moodle, canvas = MOODLE.match(name), CANVAS.match(name)
        if moodle:
            found.append(Student(moodle["name"], moodle["id"].decode(), [(path, None)]))
        elif canvas and is_plain(path):
            own = together.setdefault((canvas["name"], canvas["id"]), [])
            again = AGAIN.match(canvas["file"])
            own.append((path, again["stem"] + again["suffix"] if again else canvas["file"]))
        else:
            is_packed = name.lower().endswith(PACKED) and is_plain(path)
            found.append(Student(os.path.splitext(name)[0] if is_packed else name, "", [(path, None)]))
    found += [Student(name, number.decode(), paths) for (name, number), paths in together.items()]
    return sorted(found, key=lambda student: (student.name, student.number))


class Room:
    """A folder of ours, which is filled with files of others up to a size."""

    def __init__(self, folder):
        self.folder, self.bytes, self.files = folder, 0, 0

    def write(self, parts, data):
        """Writes a file below the folder, unless one has its name."""
        self.bytes, self.files = self.bytes + len(data), self.files + 1
        if self.bytes > MOST_BYTES or self.files > MOST_FILES:
            raise Unread(f"it has more than {MOST_FILES} files or {MOST_BYTES} bytes")
        path = os.path.join(self.folder, *map(os.fsencode, parts))
        try:
            os.makedirs(os.path.dirname(path), exist_ok=True)
            with open(path, "xb") as file:
                file.write(data)
        except OSError:
            pass

    def unpack(self, path):
        """Unpacks a zip or the playground's file."""
        if os.lstat(path).st_size > MOST_PACKED:
            raise Unread(f"it has more than {MOST_PACKED} bytes")
        (self.unpack_zip if path.lower().endswith(b".zip") else self.unpack_json)(path)

    def unpack_zip(self, path):
        """The files of a zip; no link, no absolute path and no way upward leaves the folder."""
        try:
            with zipfile.ZipFile(os.fsdecode(path)) as packed:
                for member in packed.infolist()[:MOST_FILES + 1]:
                    parts = safe_parts(member.filename)
                    kind = stat.S_IFMT(member.external_attr >> 16)
                    if parts and not member.is_dir() and kind in (0, stat.S_IFREG):
                        with packed.open(member) as file:
                            self.write(parts, file.read(MOST_FILE + 1))
        except Unread:
            raise
        except Exception as fault:  # A zip of others may break its reader in any way.
            raise Unread(f"it is no whole zip ({type(fault).__name__})") from None

    def unpack_json(self, path):
        """`{"vsi-answers": 1, "answers": {EXERCISE: {FILE: TEXT ..} ..}}`, as the playground gives it."""
        try:
            with open(path, "rb") as file:
                answers = json.loads(file.read(MOST_BYTES))["answers"]
            rows = [(exercise, name, text) for exercise, files in answers.items() for name, text in files.items()]
            for exercise, name, text in rows[:MOST_FILES + 1]:
                if len(safe_parts(exercise)) == len(safe_parts(name)) == 1:
                    self.write(safe_parts(exercise) + safe_parts(name), text.encode())
        except Unread:
            raise
        except Exception as fault:
            raise Unread(f"it is no file of answers ({type(fault).__name__})") from None


def safe_parts(name):
    """The parts of a path below a folder, or none if it leaves the folder or is hidden."""
    parts = [part for part in name.replace("\\", "/").split("/") if part not in ("", ".")]
    is_safe = not any(part.startswith((".", "__MACOSX")) or "\0" in part or len(os.fsencode(part)) > 255
                      for part in parts)
    return parts if is_safe and len(parts) <= MOST_DEPTH + 2 else []


def folders_below(folder):
    """The folder and those below it, the shallowest first; no link is followed."""
    level = [folder]
    for _ in range(MOST_DEPTH):
        yield from level
        level = [entry.path for above in level for entry in scanned(above)
                 if entry.is_dir(follow_symlinks=False) and not os.path.basename(entry.path).startswith(b".")]
        if not level or len(level) > MOST_FILES:
            return


def scanned(folder):
    try:
        with os.scandir(folder) as entries:
            return sorted(entries, key=lambda entry: entry.name)[:MOST_FILES]
    except OSError:
        return []


def home_in(folder, is_answer):
    """The shallowest folder that has an entry by which an exercise is handed in, if there is one."""
    for found in folders_below(folder):
        if any(is_answer(os.fsdecode(entry.name)) for entry in scanned(found)):
            return found
    return None


def packed_in(folder):
    """The packed files of the shallowest folder that has any."""
    for found in folders_below(folder):
        packed = [entry.path for entry in scanned(found)
                  if entry.name.lower().endswith(PACKED) and entry.is_file(follow_symlinks=False)]
        if packed:
            return packed
    return []


def folder_of(student, room, is_answer):
    """The folder with a student's answers: what was handed in if that is a folder of answers; else one in `room`, into
    which files are copied and packed files unpacked."""
    path = student.paths[0][0]
    if student.paths[0][1] is None and is_folder(path):
        home, packed = home_in(path, is_answer), packed_in(path)
        if home or not packed:
            return home or path
    elif student.paths[0][1] is None and not (path.lower().endswith(PACKED) and is_plain(path)):
        return path
    else:
        packed = [path for path, name in student.paths if (name or path).lower().endswith(PACKED)]
    own = Room(os.fsencode(room))
    for path, name in student.paths:
        if name is not None and path not in packed:
            with open(path, "rb") as file:
                own.write([name], file.read(MOST_FILE + 1))
    for path in packed:
        own.unpack(path)
    return home_in(own.folder, is_answer) or own.folder
