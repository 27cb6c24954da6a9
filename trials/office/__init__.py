"""An office by program: what trials/year runs. `models/` stands beside it as the rules."""
import os
import sys

from tally import TOP

sys.path.insert(0, os.path.join(TOP, "models"))
