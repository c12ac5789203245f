#!/usr/bin/env python3
"""scripts/stamps.py FOLDER: stamps the libraries that one run of `rt ci` built in a repository, as `rt lib` would.
Without it `scripts/vendor --built` would have them proved once more for each test."""
import sys

from kit import stamp

stamp(sys.argv[1])
