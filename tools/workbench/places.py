"""Where things stand in a checkout."""
import pathlib

ROOT = pathlib.Path(__file__).resolve().parents[2]
GUESTS = ROOT / "guests"
KIT = GUESTS / "kit"
COURSE = GUESTS / "course"
