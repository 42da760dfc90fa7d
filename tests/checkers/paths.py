"""What tools/paths.py finds, for the scripts of this folder."""

from pathlib import Path
from runpy import run_path

PATHS = run_path(str(Path(__file__).resolve().parents[2] / "tools/paths.py"))
TOP: Path = PATHS["TOP"]
PROGRAM: str = PATHS["PROGRAM"]
