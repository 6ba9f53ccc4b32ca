"""Writes the newest file of a name in GridFS. usage: python3 gridfs.py FILES.bson CHUNKS.bson NAME >OUT"""
import sys
from bsonfind import BsonfindError, find

files, chunks, name = sys.argv[1:]
try:
    newest = next(find(files, {"filename": name}, sort=[("uploadDate", -1)], limit=1), None) or sys.exit(f"gridfs.py: no file {name}")
    parts = {it["n"]: it["data"] for it in find(chunks, {"files_id": newest["_id"]})}
except BsonfindError as error:
    sys.exit(f"gridfs.py: {error}")
wanted = range(-(-newest["length"] // newest["chunkSize"]))
if missing := [n for n in wanted if n not in parts]:
    sys.exit(f"gridfs.py: {name}: chunks {missing} of {len(wanted)} are missing")
sys.stdout.buffer.write(b"".join(parts[n] for n in wanted))
