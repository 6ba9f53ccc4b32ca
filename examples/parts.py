"""Prints the documents that match a query, the oldest first. usage: python3 parts.py DUMP QUERY BYTES"""
import json
import sys
from bsonfind import BsonfindError, find_parts, plan

dump, query, most = sys.argv[1:]
try:
    parts = plan(dump, int(most))
    found = find_parts(parts, json.loads(query), sort=[("age", -1)], workers=4, decode="bytes")
except BsonfindError as error:
    sys.exit(f"parts.py: {error}")
sys.stdout.buffer.writelines(line + b"\n" for line in found)
