#!/usr/bin/env python3
"""The served farm's speed, as ratios in one run.

    bench/serve_load.py [FOLDER [SECONDS]]      in the folder for temporary files, 3 seconds a figure, if not said

Run it after `./finder build`, on a file system of the kind that the journal will stand on.
- Entries a second by four connections over a real file, one request at a time and 16 sent ahead, beside a plain program in C that writes
  and syncs a record for each piece that a client sends (plain_append.c). Connections that wait share a record, so the service writes fewer:
  how long their writes and syncs take alone is told, too.
- Pages and totals a second with four connections of wrk, or of a plain client in C where there is no wrk (plain_client.c), beside a plain
  responder in C (plain_responder.c) that frames the same requests and answers constants.
"""
import json
import os
import re
import shutil
import subprocess
import sys
import tempfile
import time

from service import ROOT, Farm, free_port, opening, records_of

where = sys.argv[1] if len(sys.argv) > 1 else None
seconds = float(sys.argv[2]) if len(sys.argv) > 2 else 3.0
built = tempfile.mkdtemp()


def compile_plain():
    for name in ("plain_append", "plain_responder", "plain_client"):
        subprocess.run(["cc", "-O2", "-D_GNU_SOURCE", "-o", f"{built}/{name}", f"{ROOT}/bench/{name}.c", "-lpthread"], check=True)


def append(farm, count, size):
    """Seconds that the plain program takes for so many records of this size."""
    line = [f"{built}/plain_append", os.path.join(farm.folder, "plain"), str(count), str(size)]
    return int(subprocess.run(line, check=True, capture_output=True).stdout) / 1e9


def entries(ahead, seconds):
    """Leases by four connections for a while, and the plain program. At most 8 runs of a search are out at once, so that the farm has 15,200
    leases a second; 16 ahead they last for less than 0.1 s."""
    farm = Farm(handlers=4, lease_ms=1_000, folder=tempfile.mkdtemp(dir=where))
    try:
        farm.start()
        over = farm.connection()
        for search in range(1, 1_901):
            assert farm.post("/v1/searches", opening(search, 20, width=8), over)[0] == 200
        over.close()
        begun, before = time.time(), len(records_of(farm.journal))
        line = [f"{built}/plain_client", str(farm.port), "/v1/leases", "4", str(seconds), str(ahead)]
        rate = float(subprocess.run(line, check=True, capture_output=True).stdout)
        took = time.time() - begun
        farm.kill()
        records = records_of(farm.journal)[before:]
        total = sum(map(len, records))
        pieces = max(1, round(rate * took / ahead))
        each = append(farm, pieces, total // pieces)
        same = append(farm, len(records), total // len(records))
        print(f"entries, {ahead} ahead: {rate:,.0f} a second, the plain program {pieces * ahead / each:,.0f} by a record for each piece: "
              f"ratio {each / took:.2f}; {pieces} pieces in {len(records)} records, whose writes and syncs alone take {same:.2f} s "
              f"of the {took:.2f} s: {same / took:.2f}", flush=True)
    finally:
        farm.close()


def requests(port, path):
    """Requests a second."""
    if shutil.which("wrk"):
        line = ["wrk", "-t2", "-c4", f"-d{seconds:.0f}s", f"http://127.0.0.1:{port}{path}"]
        said = subprocess.run(line, check=True, capture_output=True, text=True).stdout
        return float(re.search(r"Requests/sec:\s+([\d.]+)", said).group(1))
    line = [f"{built}/plain_client", str(port), path, "4", str(seconds)]
    return float(subprocess.run(line, check=True, capture_output=True).stdout)


def pages():
    farm = Farm(handlers=4)
    try:
        farm.start()
        assert farm.post("/v1/searches", opening(1, 10))[0] == 200
        for path in ("/v1/farm", "/v1/totals", "/v1/searches/1"):
            body = json.dumps(farm.get(path)[1], separators=(",", ":"))
            port = free_port()
            plain = subprocess.Popen([f"{built}/plain_responder", str(port), "4", body])
            time.sleep(0.3)
            try:
                turns = [(requests(farm.port, path), requests(port, path)) for _ in range(3)]
            finally:
                plain.kill()
                plain.wait()
            ratios = [ours / theirs for ours, theirs in turns]
            print(f"{path}: {max(it[0] for it in turns):,.0f} a second, the plain responder {max(it[1] for it in turns):,.0f}: ratio "
                  f"{max(ratios):.2f} at best, " + ", ".join(f"{it:.2f}" for it in ratios), flush=True)
    finally:
        farm.close()


try:
    compile_plain()
    entries(1, seconds)
    entries(16, min(seconds, 0.08))
    print("pages, by " + ("wrk" if shutil.which("wrk") else "plain_client.c"))
    pages()
finally:
    shutil.rmtree(built, ignore_errors=True)
