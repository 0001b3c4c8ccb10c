"""Below which folder the machine's files are."""
import os

# Only tests set another root.
ROOT = os.environ.get("ROOMS_ROOT", "")
