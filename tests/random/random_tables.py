"""Random inputs with a stored table: a mesh with its table behind it, and a table with points behind it. Some tables are those of
meshes, some are small and drawn, and many have a few bytes changed. The same seed makes the same inputs.
`tests/random/compare_random.py` tries the program on them."""

from __future__ import annotations

import re

from draws import Draws
from random_meshes import Meshes
from reference.obj import MARK
from reference.run import Refusal, mesh_of
from reference.table import table_text

MOST_FACES = 120
GREATEST_TERM = 2**126 - 1
ODD_NUMBERS = ["", "00", "01", "-1", "+1", "1.0", "x", "9" * 39, "9" * 1000, str(GREATEST_TERM), str(GREATEST_TERM + 1), str(2**64)]
ODD_COUNTS = ["0", str(2**20), str(2**20 + 1), str(2**27), str(2**27 + 1), str(2**32), "9" * 60]
ODD_BYTES = [b"\n", b" ", b"\t", b"\r", b"#", b"0", b"s", b"\xff", b"\x00"]
BEHIND = [b"\n", b" ", b"s 1 0 1\n", b"# x\n", b"table controls 0 rows 0 entries 0\n", b"v 0 0 0"]
TABLE_LINES = [b"table\n", b" table controls 1 rows 0 entries 0\n", b"table # x\n", b"tables\n", b"#table\n", b"table\\\n"]


class Tables(Draws):
    """Random inputs from a seed."""

    def __init__(self, seed: int):
        super().__init__(f"tables of {seed}")
        self.meshes = Meshes(f"meshes of tables of {seed}")

    # Tables

    def row(self, controls: int, greatest: int) -> tuple[str, int]:
        """The line of a row whose numerators sum to its denominator."""
        places = sorted(self.random.sample(range(controls), self.random.randint(1, min(controls, 6))))
        numerators = [self.random.randint(1, greatest) for _ in places]
        shares = "".join(f" {place} {numerator}" for place, numerator in zip(places, numerators))
        return f"s {sum(numerators)}{shares}\n", len(places)

    def drawn(self) -> tuple[bytes, int]:
        """The text of a small table, and how many controls it has."""
        controls = self.random.randint(1, 8)
        greatest = self.random.choice([1, 9, 999, 2**63, 2**64, 2**120])
        rows = [self.row(controls, greatest) for _ in range(self.random.choice([0, 1, 1, 2, 3, 9]))]
        entries = sum(count for _, count in rows)
        header = f"table controls {controls} rows {len(rows)} entries {entries}\n"
        return (header + "".join(text for text, _ in rows)).encode(), controls

    def of_mesh(self, text: bytes, depth: int) -> bytes | None:
        """The text of the table of a mesh at a depth, or None where it is refused."""
        try:
            return table_text(mesh_of(text), depth).encode()
        except Refusal:
            return None

    def spoiled(self, text: bytes) -> bytes:
        """A text with a number or a byte changed, a line twice, cut, or with bytes behind it."""
        kind = self.random.random()
        numbers = list(re.finditer(rb"[0-9]+", text))
        if kind < 0.45 and numbers:
            match = self.random.choice(numbers[:6] if self.happens(0.5) else numbers)
            near = [str(int(match[0]) + step) for step in (-1, 1) if int(match[0]) + step >= 0]
            number = self.random.choice(near * 8 + ODD_NUMBERS + ODD_COUNTS).encode()
            return text[: match.start()] + number + text[match.end() :]
        place = self.random.randrange(len(text) + 1)
        if kind < 0.65:
            return text[:place] + self.random.choice(ODD_BYTES) + text[place + self.random.choice([0, 1]) :]
        if kind < 0.75:
            lines = text.splitlines(keepends=True)
            line = self.random.randrange(len(lines)) if lines else 0
            return b"".join(lines[: line + 1] + lines[line : line + self.random.choice([0, 1])] + lines[line + 2 :])
        return text[:place] if kind < 0.88 else text + self.random.choice(BEHIND)

    # Inputs

    def depth_for(self, text: bytes, most: int) -> int:
        corners = sum(line.count(b" ") for line in text.splitlines() if line.startswith(b"f ")) or 1
        return self.random.choice([depth for depth in range(4) if depth == 0 or corners * 4 ** (depth - 1) <= most])

    def mesh_with_table(self) -> tuple[int, bytes]:
        """A depth, and a mesh with a table behind it: mostly its own at this depth."""
        for _ in range(4):
            text = self.meshes.text()
            depth = self.depth_for(text, MOST_FACES)
            table = self.of_mesh(text, max(depth - 1, 0) if self.happens(0.05) else depth)
            if table is not None:
                break
        if table is None or self.happens(0.05):
            table = self.drawn()[0]
        table = self.spoiled(table) if self.happens(0.6) else table
        start = self.random.choice(TABLE_LINES) if self.happens(0.02) else b""
        text += b"" if text.endswith(b"\n") else b"\n"
        mark = MARK if self.happens(0.02) else b""
        return depth, mark + text + (b"" if self.happens(0.02) else start + table)

    def points(self, count: int) -> bytes:
        """So many points, or now and then one more or one fewer, with small or great numerals."""
        numerals = self.random.choice([["0", "1", "-2", "7"], ["1/3", "0.25", "-5/7", "2"], ["1e36", "-1", "0.5", "3e20"]])
        count = max(count + (self.random.choice([-1, 1]) if self.happens(0.05) else 0), 0)
        lines = ["v " + " ".join(self.random.choice(numerals) for _ in range(3)) for _ in range(count)]
        lines += [self.random.choice(["f 1 2 3", "f 1 1 1", "vt 1 2", "# x", "t crease 2/1/0 0 1 2", "x"])] if self.happens(0.15) else []
        return "".join(line + "\n" for line in lines).encode()

    def table_with_points(self) -> bytes:
        """A table with points behind it: that of a mesh with the mesh itself, or a drawn one."""
        text = self.meshes.text()
        table = self.of_mesh(text, self.depth_for(text, MOST_FACES)) if self.happens(0.4) else None
        if table is None:
            table, controls = self.drawn()
            text = self.points(controls)
        table = self.spoiled(table) if self.happens(0.4) else table
        mark = MARK if self.happens(0.03) else b""
        return (MARK if self.happens(0.01) else b"") + table + mark + text
