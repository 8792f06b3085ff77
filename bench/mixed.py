"""Document 01's mixed runs: what the encoder's calls cost on the stored recordings and on the gate's seed. The second program makes the calls."""

import os

from build import ROOT, say
from report import counted, table

RECORDINGS = ["papers", "examples", "rules", "resets", "hostile"]
CALLS = 50000  # the gate makes thirty times as many; with a few thousand some answers are not seen, and the second program says so
SEED = 2017  # the gate's, tests/test_mixed_runs
MEASURED = {"block": "kolowrotan_encoder_block", "insert": "kolowrotan_encoder_insert"}


def works():
    recordings = [os.path.join(ROOT, "crates", "replay", "data", name + ".rec") for name in RECORDINGS]
    return {"stored recordings": ["compare", *recordings], f"mixed run of about {CALLS:,} calls, seed {SEED}": ["mixed", str(CALLS), str(SEED)]}


def mixed(run):
    rows = []
    for title, words in works().items():
        found = run.whole_calls(title, words, MEASURED)
        if found is None:
            say("the mixed runs are not measured")
            return
        rows += [[f"{title}, encoder {call}", counted(calls), counted(cost / calls)] for call, (calls, cost) in found.items()]
    run.add("mixed", "The encoder's calls on mixed runs", table(["call", "calls", "instructions per call"], rows))
