"""What the tools share."""
import sys

if sys.version_info < (3, 9):
    sys.exit(f"Python {sys.version.split()[0]} is too old: the tools want 3.9 or later")
