"""Asks a dump by the workers of Dask. usage: python3 on_dask.py SCHEDULER DUMP BYTES QUERY SORT SKIP LIMIT"""
import json
import sys
from bsonfind import BsonfindError, find_parts, plan
from distributed import Client

scheduler, dump, *texts = sys.argv[1:]
try:
    most, query, sort, skip, limit = map(json.loads, texts)
    with Client(scheduler) as client:
        on_workers = lambda ask, parts: client.gather(client.map(ask, parts))
        request = {"sort": sort, "skip": skip, "limit": limit}
        found = find_parts(plan(dump, most), query, **request, map=on_workers, decode="bytes")
except (BsonfindError, OSError, ValueError) as error:
    sys.exit(f"on_dask.py: {error}")
sys.stdout.buffer.writelines(line + b"\n" for line in found)
