"""Kolowrotan beside its peers."""

from report import OURS, counted, ratio, table, whole

LISTS = {"machine": ("Machine reports", 8, 8), "browser": ("Browser requests", 13, 16)}
# A title, what is added to the name of the list, mode and side. Raw lists have bytes that no encoder packs.
COLUMNS = [("warm encode", "", "warm", "encode"), ("literal encode", "", "literal", "encode"),
           ("literal encode, raw", "-raw", "literal", "encode"), ("churn encode", "", "churn", "encode"),
           ("churn encode, raw", "-raw", "churn", "encode"), ("warm decode", "", "warm", "decode"),
           ("literal decode", "", "literal", "decode"), ("packed literal decode", "", "literal", "decode-packed"),
           ("churn decode", "", "churn", "decode")]
TITLES = [column[0] for column in COLUMNS]
MORE = 64  # bytes that a value of the list "long" has more than one of "short"


def tasks_of(kind):
    _, entries, fields = LISTS[kind]
    return [(kind + suffix, mode, side, entries, fields) for _, suffix, mode, side in COLUMNS]


def peers(run):
    for kind, (title, entries, fields) in LISTS.items():
        section = title.lower().replace(" ", "-")
        title = f"{title}: {fields} fields, {entries} entries in the table"
        run.add(section, title, table(["instructions per field"] + TITLES, run.rows_of_counts(tasks_of(kind))))
    packed(run)
    each_byte(run)
    if run.peers and run.ours:
        ratios(run)


def multiple(part, of):
    return None if part is None else part / of


def ratios(run):
    """Instructions of Kolowrotan as a multiple of the best peer's."""
    rows = []
    for kind, (title, _, _) in LISTS.items():
        tasks = tasks_of(kind)
        best = [min(run.count(name, task) for name in run.peers) for task in tasks]
        old = [run.before.get(" ".join(map(str, ("instructions", OURS, *task)))) for task in tasks]
        if any(old):
            rows.append([title + ", before"] + [ratio(multiple(o, b)) for o, b in zip(old, best)])
        rows.append([title] + [counted(multiple(run.count(OURS, task), b), 2) for task, b in zip(tasks, best)])
        names = [min(run.peers, key=lambda name, task=task: run.count(name, task)) for task in tasks]
        rows.append(["the best peer"] + names)
    run.add("ratios", "Instructions, ratio to the best peer", table([""] + TITLES, rows))


def times(run):
    """Nanoseconds: the medians, and the median of the ratio to the best peer within a pass."""
    rows = []
    for kind, (title, _, _) in LISTS.items():
        measured = [run.time(task) for task in tasks_of(kind)]
        for name in run.all_names:
            shown = counted if name == OURS else whole
            rows.append([f"{title}, {name}"] + [shown(times[name][0]) for times in measured])
        others = [name for name in run.all_names if name != OURS]
        if others:
            best = [None if times[OURS][1] is None else 1 / min(times[name][1] for name in others) for times in measured]
            rows.append(["**ratio to the best peer**"] + [counted(value, 2) for value in best])
    run.add("times", "Nanoseconds per field, one interleaved run", table([""] + TITLES, rows))


def packed(run):
    """What unpacking costs: the same literals with packed and with plain strings. Churn with packed strings beside."""
    rows = []
    for kind, (title, entries, fields) in LISTS.items():
        for name in run.names:
            plain, tight, churn = [(kind, mode, side, entries, fields) for mode, side in
                                   [("literal", "decode"), ("literal", "decode-packed"), ("churn", "decode-packed")]]
            rows.append([f"{title}, {name}"] + unpacking(run, name, plain, tight) + [counted(run.count(name, churn))])
    head = ["per field", "bytes of strings", "packed", "instructions to unpack", "for each byte unpacked", "for each byte packed",
            "packed churn decode"]
    run.add("packed", "Unpacking: packed less plain literal decode", table(head, rows))


def unpacking(run, name, plain, tight):
    if run.count(name, tight) is None:
        return ["refused"] * 5
    length, strings = run.lengths(name, plain)
    short = strings - (length - run.lengths(name, tight)[0])
    more = run.count(name, tight) - run.count(name, plain)
    return [counted(strings, 1), counted(short, 1), counted(more), counted(more / strings, 1), counted(more / short, 1)]


def each_byte(run):
    """What one byte more in a value costs: fields with short and with long values."""
    columns = [column for column in COLUMNS if column[2] == "literal"]
    rows = []
    for name in run.names:
        short, long = [[run.count(name, (kind + suffix, mode, side, 8, 8)) for _, suffix, mode, side in columns]
                       for kind in ["short", "long"]]
        rows.append([name] + [counted(None if a is None else (b - a) / MORE, 1) for a, b in zip(short, long)])
    head = ["instructions for each byte more"] + [column[0] for column in columns]
    run.add("each-byte", "What a byte of a value costs", table(head, rows))
