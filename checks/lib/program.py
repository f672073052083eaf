"""The repository's root, and the program that the checks run: that of OFTP_STATION, or else the one that was last proved."""

import os
from pathlib import Path

ROOT = Path(__file__).resolve().parents[2]
PROGRAM = Path(os.environ.get("OFTP_STATION", ROOT / "crates/oftp_station/out/oftp_station")).absolute()
