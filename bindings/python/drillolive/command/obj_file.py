"""Reads an OBJ file: the text for the library, and what the library does not keep, such as groups and materials."""

from __future__ import annotations

from dataclasses import dataclass, field

BYTE_ORDER_MARK = "\ufeff"

# Statements of OBJ that say nothing of a polygon mesh with tags. The library refuses most of them.
LEFT_OUT = frozenset(
    "vp cstype deg bmat step curv curv2 surf parm trim hole scrv sp end con mg bevel c_interp d_interp lod shadow_obj "
    "trace_obj maplib usemap bsp bzp cdc cdp res call csh ctech stech l p".split()
)


class ObjFileError(Exception):
    """A line that cannot be read at all: its number, from 1, and what is wrong with it."""

    def __init__(self, line: int, message: str) -> None:
        super().__init__(f"line {line}: {message}")
        self.line = line
        self.message = message


@dataclass(frozen=True)
class Setting:
    """What `o`, `g`, `s` and `usemtl` say of a face: the words behind each, or None where none came before the face."""

    object: str | None = None
    groups: str | None = None
    smoothing: str | None = None
    material: str | None = None


@dataclass
class ObjFile:
    """An OBJ file. Lines are counted from 1; points, values, faces and settings are counted from 0."""

    text: bytes = b""  # what the library reads: lines that are left out are blank, and each line keeps its number
    points: list[tuple[str, str, str]] = field(default_factory=list)  # the words of each `v`
    point_lines: list[int] = field(default_factory=list)
    colours: list[tuple[str, str, str] | None] = field(default_factory=list)  # the fourth to sixth word of each `v`
    values: list[tuple[str, str]] = field(default_factory=list)  # the words of each `vt`; a missing second one is "0"
    value_lines: list[int] = field(default_factory=list)
    face_sizes: list[int] = field(default_factory=list)
    corners: list[int] = field(default_factory=list)  # the point of each corner, face by face
    texture_corners: list[int | None] = field(default_factory=list)  # the value of each corner, where it names one
    face_lines: list[int] = field(default_factory=list)
    face_groups: list[int] = field(default_factory=list)  # for each face the index of its setting
    settings: list[Setting] = field(default_factory=list)
    libraries: list[str] = field(default_factory=list)  # the words of each `mtllib`
    tags: list[tuple[int, str]] = field(default_factory=list)  # the line and the text of each `t`
    warnings: list[tuple[int, str]] = field(default_factory=list)  # the line, and what is left out


def decode(data: bytes) -> str:
    """Returns the text of bytes. Bytes that are no UTF-8 come back by `encode`."""
    return data.decode("utf-8", "surrogateescape")


def encode(text: str) -> bytes:
    """Returns the bytes of a text that `decode` made."""
    return text.encode("utf-8", "surrogateescape")


def read_obj_file(text: bytes) -> ObjFile:
    """Reads the bytes of an OBJ file.

    Raises `drillolive.ObjError` where the library refuses a line, and `ObjFileError` where only this reader does. Lines
    that are read here without a fault, such as numerals, are left to the library to judge.
    """
    lines = joined_lines(decode(text).removeprefix(BYTE_ORDER_MARK).split("\n"))
    warnings = [(number, f"{word} is left out") for number, word in leave_out(lines)]
    file = ObjFile(text=encode("\n".join(lines)), warnings=warnings)
    try:
        _Reader(file).read(lines)
    except ObjFileError:
        refuse_as_library(file.text)
        raise
    return file


def refuse_as_library(text: bytes) -> None:
    """Raises the fault of the library for a text, since it names the least bad line. Returns where it finds none."""
    from drillolive import Mesh

    Mesh.from_obj(text)


def words_of(line: str) -> list[str]:
    """Returns the words of a line up to the first that begins with `#`, where a comment begins."""
    words = line.split()
    if "#" in line:
        for place, word in enumerate(words):
            if word.startswith("#"):
                return words[:place]
    return words


def joined_lines(lines: list[str]) -> list[str]:
    """Joins each line whose last word ends with `\\` with the next one, which becomes empty.

    A last line that ends so stays as it is, for the library to refuse.
    """
    first = 0
    while first < len(lines) - 1:
        last = first
        while last < len(lines) - 1 and "\\" in lines[first] and (start := _continued(lines[first])) is not None:
            last += 1
            lines[first] = start + " " + lines[last].strip(" \t\r")
            lines[last] = ""
        first = last + 1
    return lines


def _continued(line: str) -> str | None:
    """Returns what stands before the `\\` at the end of the last word, or None where the last word does not end so."""
    words = words_of(line)
    if not words or not words[-1].endswith("\\"):
        return None
    words[-1] = words[-1][:-1]
    return " ".join(words)


def leave_out(lines: list[str]) -> list[tuple[int, str]]:
    """Empties the lines of statements that are left out. Returns the number, from 1, and the keyword of each."""
    found = []
    for number, line in enumerate(lines, 1):
        # Most lines are those of points, values, normals and faces, and begin with their keyword.
        if line.startswith(("v ", "vt ", "vn ", "f ")):
            continue
        word = line.split(None, 1)[0] if line and not line.isspace() else ""
        if word in LEFT_OUT:
            found.append((number, word))
            lines[number - 1] = ""
    return found


class _Reader:
    """Reads the lines of an OBJ file into an `ObjFile`."""

    def __init__(self, file: ObjFile) -> None:
        self.file = file
        self.setting = Setting()
        self.numbers: dict[Setting, int] = {}  # the index of each setting that a face has

    def read(self, lines: list[str]) -> None:
        """Reads all lines. Raises ObjFileError for the first that cannot be read."""
        readers = {"v": self.read_point, "vt": self.read_value, "f": self.read_face, "t": self.read_tag}
        readers.update({word: self.read_name for word in ("o", "g", "s", "usemtl", "mtllib")})
        for number, line in enumerate(lines, 1):
            words = words_of(line)
            if words and words[0] in readers:
                readers[words[0]](number, words, line)
        self.refuse_late_indices()

    def read_point(self, number: int, words: list[str], line: str) -> None:
        if len(words) < 4:
            raise ObjFileError(number, "line too short")
        self.file.points.append((words[1], words[2], words[3]))
        self.file.point_lines.append(number)
        self.file.colours.append((words[4], words[5], words[6]) if len(words) > 6 else None)

    def read_value(self, number: int, words: list[str], line: str) -> None:
        if len(words) < 2:
            raise ObjFileError(number, "line too short")
        self.file.values.append((words[1], words[2] if len(words) > 2 else "0"))
        self.file.value_lines.append(number)

    def read_face(self, number: int, words: list[str], line: str) -> None:
        file = self.file
        if len(words) < 2:
            raise ObjFileError(number, "line too short")
        try:
            if "/" in line:
                parts = [word.split("/") for word in words[1:]]
                points = [int(part[0]) for part in parts]
                values = [int(part[1]) if len(part) > 1 and part[1] else None for part in parts]
            else:
                points = [int(word) for word in words[1:]]
                values = [None] * len(points)
        except ValueError:
            raise ObjFileError(number, "bad face corner") from None
        file.corners += [_index(point, len(file.points), number) for point in points]
        file.texture_corners += [None if value is None else _index(value, len(file.values), number) for value in values]
        file.face_sizes.append(len(points))
        file.face_lines.append(number)
        file.face_groups.append(self.number_of_setting())

    def read_tag(self, number: int, words: list[str], line: str) -> None:
        self.file.tags.append((number, " ".join(words)))

    def read_name(self, number: int, words: list[str], line: str) -> None:
        # A name may have blanks and `#`, so all that stands behind the keyword is kept.
        name = line.split(words[0], 1)[1].strip()
        if words[0] == "mtllib":
            self.file.libraries.append(name)
            return
        kinds = {"o": "object", "g": "groups", "s": "smoothing", "usemtl": "material"}
        parts = {kind: getattr(self.setting, kind) for kind in kinds.values()}
        self.setting = Setting(**{**parts, kinds[words[0]]: name})

    def number_of_setting(self) -> int:
        """Returns the index of the setting that holds now, which is added where no face had it."""
        number = self.numbers.setdefault(self.setting, len(self.numbers))
        if number == len(self.file.settings):
            self.file.settings.append(self.setting)
        return number

    def refuse_late_indices(self) -> None:
        """Raises ObjFileError for the first face with an index past the end of its list."""
        file = self.file
        used = (value for value in file.texture_corners if value is not None)
        if max(file.corners, default=-1) < len(file.points) and max(used, default=-1) < len(file.values):
            return
        first = 0
        for size, number in zip(file.face_sizes, file.face_lines):
            values = [value for value in file.texture_corners[first : first + size] if value is not None]
            points = file.corners[first : first + size]
            if max(points) >= len(file.points) or max(values, default=-1) >= len(file.values):
                raise ObjFileError(number, "index out of range")
            first += size


def _index(word: int, count: int, number: int) -> int:
    """Returns an index of a corner from 0. Below 0 it counts back from the last of `count` lines."""
    index = word - 1 if word > 0 else count + word
    if word == 0 or index < 0:
        raise ObjFileError(number, "index out of range")
    return index
