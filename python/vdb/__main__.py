# SPDX-License-Identifier: Apache-2.0
"""The command `vdb-scene`, as python3 -m vdb."""
import sys

from .command import main

if __name__ == "__main__":
    sys.exit(main())
