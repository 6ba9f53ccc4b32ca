#!/usr/bin/env python3
"""Prints where this Python looks for packages below a prefix, or the place of Debian where it looks nowhere below it.

usage: tools/packages.py PREFIX
"""

import site
import sys
from pathlib import Path

library = Path(sys.argv[1], "lib")
below = [place for place in site.getsitepackages() if Path(place).is_relative_to(library)]
print(below[0] if below else library / "python3/dist-packages")
