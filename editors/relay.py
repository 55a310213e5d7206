#!/usr/bin/env python3
"""The launcher for a Java machine that runs already, with nothing added to what the editor and the bridge say.

The line that the bridge prints goes to the standard error, and its status is that of this script; 2 where it can't be
started, 1 where the editor goes away without an `attach`.

usage: editors/relay.py --target HOST:PORT [--program PROGRAM]
"""
import sys

from launch import main

if __name__ == "__main__":
    sys.exit(main(["--plain", *sys.argv[1:]]))
