"""Prints what parts of DUMP answer, as a dump if FORM is bson, or lists all parts. usage: python3 part.py ['OFFSET LENGTH FIRST'..]"""
import json
import os
import sys
from bsonfind import BsonfindError, Part, find_parts, plan

dump = os.environ["DUMP"]
parts = [Part(dump, *map(int, it.split())) for it in sys.argv[1:] if it]
try:
    most, query = (json.loads(os.environ[name]) for name in ("BYTES", "QUERY"))
    request = {name.lower(): json.loads(os.environ[name]) for name in ("SORT", "SKIP", "LIMIT")}
    form = os.environ.get("FORM", "bytes")
    found = find_parts(parts, query, **request, decode=form)
    listed = [f"{it.offset} {it.length} {it.first}".encode() for it in ([] if parts else plan(dump, most))]
except (BsonfindError, ValueError) as error:
    sys.exit(f"part.py: {error}")
sys.stdout.buffer.write(b"".join(found) if form == "bson" and parts else b"".join(it + b"\n" for it in found + listed))
