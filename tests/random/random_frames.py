"""Random inputs of `far frames`: a mesh, mostly a good one, and lines behind it that move its control points: good, bad or
nearly bad, and now and then cut or too long. The same seed makes the same inputs. `tests/random/compare_random.py` tries the
program on them."""

from __future__ import annotations

from draws import Draws
from random_meshes import Meshes

GREATEST_LINE = 2**16 - 1
FRAMES_LINES = ["frames", "frames", "frames", " frames\t", "frames # x", "frames \\", "frames depth=2 frames"]
OTHER_FRAMES_LINES = ["Frames", "frames\\", "#frames", "frame"]
PASSED_LINES = ["", "", "# go", " ", "\t#x", "#move 0 x x x"]
GO_LINES = ["go", "go", "go", "go", "go", " go\t", "go on", "go \\", "go#", "go # x"]
BAD_LINES = ["go\\", "GO", "move", "moves 0 0 0 0", "frames", "frame 0", "v 1 2 3", "f 1 2 3", "t", "\\", "\ufeffgo"]
BAD_INDICES = ["-1", "+0", "-0", "0.0", "x", "1/1", "0x0", str(2**32), str(2**64), "9" * 40, "\u0663"]
BAD_NUMERALS = (
    ["x", "nan", "--1", ".", "1/0", "1/", "1e", "1e37", "9" * 38, f"1/{10**37}", "1e-38", "0.1", "1/3", "1/999983"]
    + [f"0.{1:019}", "9" * 37, "-" + "9" * 37, "9" * 37, "-" + "9" * 36, "1e36", "1e35"]
)
AFTER_MOVES = [""] * 12 + [" 1", " nan x", " \\", " # x", " #\\", "\t", "\r"]


class Frames(Draws):
    """Random inputs from a seed."""

    def __init__(self, seed: int):
        super().__init__(f"frames of {seed}")
        self.meshes = Meshes(f"meshes of frames of {seed}")
        # of the input that is made: how many control points its mesh has, their numerals, and how many decimals moves have
        self.count, self.numerals, self.decimals = 0, [], 0

    # Meshes

    def good_mesh(self) -> list[str]:
        """The lines of a mesh of one part and a point or two without a face, whose numbers may be too great."""
        count, faces = self.meshes.grid() if self.happens(0.6) else self.meshes.fan()
        count += self.random.choice([0, 0, 1, 2])
        coordinate = self.meshes.coordinates()
        lines = [f"v {coordinate()} {coordinate()} {coordinate()}" for _ in range(count)]
        lines += [self.meshes.plain_face_line(face) for face in faces]
        return lines + [self.meshes.tag(count, faces) for _ in range(self.random.choice([0, 0, 1, 3]))]

    def mesh(self) -> list[str]:
        lines = self.good_mesh() if self.happens(0.7) else self.meshes.text().decode().splitlines()
        return [] if self.happens(0.02) else lines

    # Frame lines

    def good_numeral(self) -> str:
        """A small number, one of the mesh, or a decimal that is as fine as the others."""
        kind = self.random.random()
        if kind < 0.6 or not self.numerals:
            return str(self.random.randint(-9, 9))
        if kind < 0.8:
            return self.random.choice(self.numerals)
        digits = self.random.randint(0, 10**self.decimals - 1)
        return f"{self.random.randint(-5, 5)}.{digits:0{self.decimals}}" if self.decimals else "-0"

    def index(self) -> str:
        if self.happens(0.02):
            return self.random.choice([*BAD_INDICES, str(self.count)])
        return "0" * self.random.choice([0, 0, 0, 0, 1, 30]) + str(self.random.randrange(max(self.count, 1)))

    def move(self) -> str:
        words = ["move", self.index(), *(self.good_numeral() for _ in range(3))]
        if self.happens(0.04):
            words[self.random.randint(2, 4)] = self.random.choice(BAD_NUMERALS)
        if self.happens(0.02):
            words = words[: self.random.randint(1, 4)]
        return self.random.choice([" "] * 9 + ["\t "]).join(words) + self.random.choice(AFTER_MOVES)

    def long(self, line: str) -> str:
        """A line of as many bytes as one may have, or one more, by blanks before it or a comment behind it."""
        length = GREATEST_LINE + self.random.choice([0, 0, 1])
        return line.rjust(length) if self.happens(0.5) else f"{line} #".ljust(length, "x")

    def frame_line(self) -> str:
        kind = self.random.random()
        if kind < 0.6:
            line = self.move()
        elif kind < 0.85:
            line = self.random.choice(GO_LINES)
        else:
            line = self.random.choice(PASSED_LINES if kind < 0.99 else BAD_LINES)
        return self.long(line) if self.happens(0.005) else line

    # Inputs

    def lines(self) -> list[str]:
        """The lines of an input; now and then there is no line `frames`, or it is not written so."""
        mesh = self.mesh()
        points = [line.split()[1:4] for line in mesh if line.startswith("v ")]
        self.count, self.numerals = len(points), [axis for point in points for axis in point]
        self.decimals = self.random.choice([0, 0, 0, 1, 2, 3, 18])
        frames = self.random.choice(OTHER_FRAMES_LINES if self.happens(0.03) else FRAMES_LINES)
        moves = [self.frame_line() for _ in range(self.random.choice([0, 2, 4, 8, 12, 20]))]
        last = ["go"] if self.happens(0.6) else []
        return mesh if self.happens(0.04) else [*mesh, frames, *moves, *last]

    def text(self) -> bytes:
        end = self.random.choice(["\n", "\n", "\n", "\r\n"])
        data = (end.join(self.lines()) + self.random.choice([end, end, ""])).encode()
        if self.happens(0.03):
            data = b"\xef\xbb\xbf" + data
        if self.happens(0.05):
            data = data[: self.random.randrange(len(data) + 1)]
        return data
