# SPDX-License-Identifier: Apache-2.0
"""Loads a scene file and saves it: resave.py PACKAGE INPUT OUTPUT

PACKAGE is vdb or vdb.scenefile. The status is 0, or 1 if a file can't be read or written. It is 9 if a descriptor is left open.
"""
import importlib
import os
import sys

import vdb


def descriptors():
    return {name for name in os.listdir("/proc/self/fd") if os.path.exists(f"/proc/self/fd/{name}")}


def main():
    package, loaded, saved = sys.argv[1:]
    before, status = descriptors(), 0
    try:
        importlib.import_module(package).load(loaded).save(saved)
    except vdb.VdbError as error:
        os.write(2, f"resave: {error}\n".encode())
        status = 1
    return status if descriptors() == before else 9


if __name__ == "__main__":
    sys.exit(main())
