"""Where the repository is, and the way to its modules: the package `reference` in tests/, and the modules of tools/.

Each folder of scripts has a `paths.py` that runs this file. A script imports it before other modules of the repository.
"""

import sys
from pathlib import Path

TOP = next(folder for folder in Path(__file__).resolve().parents if (folder / "crates.txt").is_file())
PROGRAM = "crates/far_cli/out/far_cli"  # the proved program, below the top
sys.path[:0] = [str(TOP / folder) for folder in ("tests", "tools")]
