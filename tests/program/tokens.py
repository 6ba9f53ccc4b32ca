#!/usr/bin/env python3
"""The token after a batch of `find`, by Python's hashlib and base64.

usage: tests/program/tokens.py FILE GIVEN LAST [--query Q] [--sort S] [--skip N] [--limit N]

Prints the token which says that of this dump and this request GIVEN documents were given, the last of them the one of number LAST.
"""

import argparse
import sys
from pathlib import Path

sys.path.insert(0, str(Path(__file__).resolve().parents[1]))

from model.answers import digest, token_of
from model.sessions import request_text


def main() -> int:
    words = argparse.ArgumentParser(usage=__doc__)
    words.add_argument("file", type=Path)
    words.add_argument("given", type=int)
    words.add_argument("last", type=int)
    words.add_argument("--query", default="{}")
    words.add_argument("--sort", default="{}")
    words.add_argument("--skip", type=int, default=0)
    words.add_argument("--limit", type=int, default=0)
    said = words.parse_args()
    text = request_text(said.query, said.sort, said.skip, said.limit)
    print(token_of(said.given, said.last, digest(said.file.read_bytes(), text)))
    return 0


if __name__ == "__main__":
    sys.exit(main())
