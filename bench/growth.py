"""Cost against size, the test whether memory forms a state, and where the instructions go."""

import os

from plot import plot
from report import OURS, counted, table

ENTRIES = [8, 32, 68, 128]
FIELDS = [1, 2, 8, 64, 256, 1000]
DELETES = [0, 1, 8, 32, 64, 128]
HORIZONS = [1, 64, 512, 1024, 2048, 4096]
SIDES = ["encode", "decode"]
WITHIN = {"horizon": 64}


def growth(run):
    sizes(run, "entries", "Cost against entries in the table", ["warm", "literal", "churn"], ENTRIES,
          lambda mode, side, entries: ("machine", mode, side, entries, 8))
    sizes(run, "fields", "Cost against fields of a block", ["warm", "literal"], FIELDS,
          lambda mode, side, fields: ("short", mode, side, 8, fields))
    if run.ours:
        plot_counts(run)
        deletes(run)
        horizons(run)
        other_calls(run)


def sizes(run, name, title, modes, counts, task):
    """Every implementation at each size, one table."""
    rows = []
    for mode in modes:
        for side in SIDES:
            tasks = [task(mode, side, count) for count in counts]
            rows += [[f"{mode} {side}"] + row for row in run.rows_of_counts(tasks)]
    run.add(name, title, table([f"instructions per field, {name}:", ""] + list(map(str, counts)), rows))


def plot_counts(run):
    lines = [(f"{mode} {side}", [(n, run.count(OURS, ("machine", mode, side, n, 8))) for n in ENTRIES])
             for mode in ["warm", "literal", "churn"] for side in SIDES]
    plot(os.path.join(run.plots, "entries.svg"), "Machine reports of 8 fields", "entries in the table", "instructions per field", lines,
         logarithmic=(False, True), x_marks=ENTRIES)
    lines = [(f"{mode} {side}", [(n, run.count(OURS, ("short", mode, side, 8, n))) for n in FIELDS])
             for mode in ["warm", "literal"] for side in SIDES]
    plot(os.path.join(run.plots, "fields.svg"), "Blocks, 8 entries in the table", "fields of the block", "instructions per field", lines,
         logarithmic=(True, True))


def call_table(run, name, title, head, rows, places):
    """Rows of (title, call, fixed part of the place); `places(call)` has the part that grows, None where the call cannot be made."""
    body, lines = [], []
    for row, call, fixed in rows:
        whole_places = [None if place is None else {**fixed, **place} for place in places(call)]
        body.append([row] + [run.cell_of_cost(call, place) for place in whole_places])
        lines.append((row, [(x, run.cost(call, place)) for x, place in zip(head[1:], whole_places) if place is not None]))
    run.add(name, title, table(list(map(str, head)), body))
    return lines


def deletes(run):
    base = {"entries": 128, **WITHIN}
    listed = {**base, "listed": 16}
    rows = [("decoder, the test alone", "decoder-test", base), ("decoder, block of 8 literals", "decoder-literal", base),
            ("decoder, ended", "decoder-ended", base), ("decoder, collect, none ready", "decoder-collect", base),
            ("decoder, collect, all ready", "decoder-collect", {**base, "ready": 1}),
            ("decoder, hold enquiry", "decoder-hold", base), ("decoder, the test alone, 16 + 16 listed", "decoder-test", listed),
            ("decoder, collect, 16 + 16 listed", "decoder-collect", listed),
            ("encoder, the test alone", "encoder-test", base), ("encoder, block of 8 literals", "encoder-literal", base)]

    def places(call):
        return [None if call == "decoder-hold" and count == 0 else {"deletes": count} for count in DELETES]

    lines = call_table(run, "deletes", "Calls against deletes outstanding", ["deletes"] + DELETES, rows, places)
    plot(os.path.join(run.plots, "deletes.svg"), "Decoder calls, 128 entries in the table", "deletes outstanding",
         "instructions per call", [(label.removeprefix("decoder, "), line) for label, line in lines[:8]], x_marks=DELETES[:1] + DELETES[2:])


def horizons(run):
    one, all_of_them = {"entries": 128, "deletes": 1}, {"entries": 128, "deletes": 128}
    rows = [("hold enquiry, 1 delete", "decoder-hold", one), ("collect, 1 delete", "decoder-collect", one),
            ("collect, 128 deletes", "decoder-collect", all_of_them), ("the test alone, 128 deletes", "decoder-test", all_of_them)]
    lines = call_table(run, "streams", "Decoder calls against streams that each delete names in each part", ["streams"] + HORIZONS, rows,
                       lambda call: [{"horizon": horizon} for horizon in HORIZONS])
    plot(os.path.join(run.plots, "streams.svg"), "Decoder calls, 128 entries in the table", "streams that each delete names in each part",
         "instructions per call", lines, x_marks=HORIZONS[:1] + HORIZONS[2:])


def other_calls(run):
    outstanding, ready = {"deletes": 1, **WITHIN}, {"deletes": 1, "ready": 1, **WITHIN}
    rows = [("decoder, read an insert", "decoder-insert", WITHIN), ("decoder, read a delete", "decoder-delete", WITHIN),
            ("decoder, ended", "decoder-ended", WITHIN), ("decoder, collect that frees an entry", "decoder-collect", ready),
            ("decoder, hold enquiry", "decoder-hold", outstanding), ("encoder, insert", "encoder-insert", WITHIN),
            ("encoder, delete", "encoder-delete", WITHIN), ("encoder, acknowledge", "encoder-acknowledge", outstanding)]

    def places(call):
        last = 127 if call.endswith("insert") else 128
        return [{"entries": entries} for entries in ENTRIES[:-1] + [last]]

    call_table(run, "calls", "Other calls against entries", ["entries"] + ENTRIES, rows, places)


def test(run):
    """The test by itself: a block on stream 5,000 is answered 11 right after it."""
    places = [{"entries": entries, **WITHIN} for entries in ENTRIES] + [{"entries": 128, "deletes": 128, **WITHIN}]
    rows = []
    for end in ["decoder", "encoder"]:
        rows.append([f"{end}, the test alone"] + [run.cell_of_cost(end + "-test", place) for place in places])
        for call, title in [("warm", "block of 8, all in the table"), ("literal", "block of 8 literals")]:
            # An encoder's entries under deletion are not referred to.
            possible = [None if end == "encoder" and call == "warm" and "deletes" in place else place for place in places]
            rows.append([f"{end}, {title}"] + [run.cell_of_cost(f"{end}-{call}", place) for place in possible])
            rows.append(["share of the test"] + ["–" if place is None else
                        f"{100 * run.cost(end + '-test', place) / run.cost(f'{end}-{call}', place):.0f} %" for place in possible])
    head = ["instructions per call"] + [f"{entries} entries" for entries in ENTRIES] + ["128, all under deletion"]
    run.add("test", "The test whether memory forms a state", table(head, rows))


PROFILED = [("encoder block of 8, all in the table", "encoder-warm", "kolowrotan_encoder_block"),
            ("encoder block of 8 literals", "encoder-literal", "kolowrotan_encoder_block"),
            ("encoder block of 8 literals, raw", "encoder-raw", "kolowrotan_encoder_block"),
            ("encoder insert", "encoder-insert", "kolowrotan_encoder_insert"),
            ("encoder delete", "encoder-delete", "kolowrotan_encoder_delete"),
            ("decoder block of 8, all in the table", "decoder-warm", "kolowrotan_decoder_block"),
            ("decoder block of 8 literals", "decoder-literal", "kolowrotan_decoder_block"),
            ("decoder block of 8 packed literals", "decoder-packed", "kolowrotan_decoder_block"),
            ("decoder reads an insert", "decoder-insert", "kolowrotan_decoder_read"),
            ("decoder collect that frees an entry", "decoder-collect", "kolowrotan_decoder_collect")]


def where(run):
    """Which functions take a call's instructions, at 32 entries."""
    rows = []
    for title, call, function in PROFILED:
        place = {"entries": 32, **WITHIN}
        if call == "decoder-collect":
            place.update(deletes=1, ready=1)
        cost = run.cost(call, place)
        shares = [] if cost is None else run.calls.profile(call, function, place)
        shown = [f"`{name}` {100 * share:.0f} %" for name, share in shares[:4] if share >= 0.05]
        rows.append([title, counted(cost), ", ".join(shown)])
    run.add("where", "Where the instructions go, 32 entries", table(["call", "instructions", "of which"], rows))
