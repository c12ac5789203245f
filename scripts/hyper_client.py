#!/usr/bin/env python3
"""scripts/hyper_client.py: proves and runs the program of hyper_client/ over the library as `rt ci` left it here, and
compares what it prints. Without it nothing would show that a `Client` asks over a connection of the kit's `hyper`. Its
proof takes some four minutes, so `./test --all` alone has it."""
import subprocess
import sys
import tempfile

from common import TOP

sys.path.insert(0, str(TOP / "scripts/measure"))
from beside import crate_in

CRATE = "hyper_client may_wait=5: tower tower_hyper tower_time hyper http_body_util bytes futures tokio anyhow"
WANTED = "200 OK: 108 bytes\nrequest timed out\n"

with tempfile.TemporaryDirectory(prefix="hyper-client-") as folder:
    subprocess.run([TOP / "scripts/vendor", "--built", folder], check=True, stdout=sys.stderr)
    texts = {it.stem: it.read_text(encoding="utf-8") for it in (TOP / "scripts/hyper_client").glob("*.txt")}
    files = {"proofs/raw_peer/RawPeerFuture/poll/Invariants.antt": texts.pop("invariants")}
    crate = crate_in(folder, CRATE, files | {f"src/{name}.rt": text for name, text in texts.items()})
    ran = subprocess.run(["rt", "run"], cwd=crate, capture_output=True, text=True, check=False)
    print(ran.stdout, end="")
    if ran.returncode or ran.stdout != WANTED:
        sys.exit((ran.stdout + ran.stderr)[-3000:])
