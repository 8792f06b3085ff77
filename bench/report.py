"""The numbers of one run, kept by name, and the sections of the report that are made of them."""

import json
import os
import re

from build import build_second, say
from measure import Refused, inclusive

OURS = "kolowrotan"


def table(head, rows):
    """A Markdown table; numbers to the right."""
    lines = ["| " + " | ".join(head) + " |", "|---" + "|---:" * (len(head) - 1) + "|"]
    lines += ["| " + " | ".join(row) + " |" for row in rows]
    return "\n".join(lines)


def whole(value):
    return "–" if value is None else f"{value:,.0f}"


def ratio(value):
    return "–" if value is None else f"{value:.2f}"


def counted(value, digits=0):
    """A number that was measured now."""
    return "refused" if value is None else f"{value:,.{digits}f}"


def key(*words):
    return " ".join(map(str, words))


class Run:
    """Measures what is not known yet. `earlier` has the numbers known, and those of a library before, which are shown beside."""

    def __init__(self, driver, calls, library, earlier, only, plots):
        self.driver, self.calls = driver, calls
        self.results, self.before = earlier
        self.all_names = list(driver.versions)
        self.names = [name for name in self.all_names if only in (None, name)]
        self.peers = [name for name in self.names if name != OURS]
        self.ours = OURS in self.names
        self.plots = plots
        self.library = library
        self.second_program = None
        self.sections = {}

    # ---- single numbers ----

    def kept(self, name, measure, digits):
        """A number, or None where the library refuses packed strings."""
        if name not in self.results:
            say(name)
            try:
                self.results[name] = round(measure(), digits)
            except Refused:
                say(name + ": refused")
                self.results[name] = None
        return self.results[name]

    def count(self, name, task):
        """Instructions per field."""
        return self.kept(key("instructions", name, *task), lambda: self.driver.per_field(name, task), 2)

    def lengths(self, name, task):
        """Bytes per field of what is decoded, and of its strings before they are packed."""
        return [self.kept(key(words, name, *task), lambda i=i: self.driver.lengths(name, task)[i], 3)
                for i, words in enumerate(["bytes", "strings"])]

    def time(self, task):
        """Nanoseconds per field, and shares of the time of Kolowrotan, of all implementations in one interleaved run."""
        if key("nanoseconds", OURS, *task) not in self.results:
            say(key("nanoseconds", *task))
            try:
                measured = self.driver.times(task)
            except Refused:
                say(key("nanoseconds", *task) + ": refused")
                measured = {name: (None, None) for name in self.all_names}
            for name, (nanoseconds, share) in measured.items():
                self.results[key("nanoseconds", name, *task)] = nanoseconds
                self.results[key("share", name, *task)] = share
        return {name: (self.results[key("nanoseconds", name, *task)], self.results[key("share", name, *task)]) for name in self.all_names}

    def call_key(self, call, place):
        return key("call", call, *(f"{name}={place[name]}" for name in sorted(place)))

    def cost(self, call, place):
        """Instructions of one call."""
        return self.kept(self.call_key(call, place), lambda: self.calls.cost(call, **place), 1)

    def second(self):
        """The second program over the library that is measured, or None where it cannot be built."""
        if self.second_program is None:
            self.second_program = build_second(self.library)
        return self.second_program

    def whole_calls(self, title, words, functions):
        """For each call how often the second program makes it with these words, and the instructions of all of them; None where that cannot be measured."""
        names = {call: key("mixed", title, call) for call in functions}
        if not all(name in self.results for name in names.values()):
            say(title)
            measured = self.second() and inclusive([self.second(), *words], functions.values())
            if not measured:
                return None
            for call, function in functions.items():
                self.results[names[call]] = measured[function]
        return {call: self.results[name] for call, name in names.items()}

    # ---- rows with what was before ----

    def rows_of_counts(self, tasks):
        """A row for each implementation, and for Kolowrotan one for what was before."""
        rows = []
        for name in self.names:
            rows.append([name] + [counted(self.count(name, task)) for task in tasks])
            old = [self.before.get(key("instructions", OURS, *task)) for task in tasks]
            if name == OURS and any(old):
                rows.insert(0, [OURS + ", before"] + [whole(value) for value in old])
        return rows

    def cell_of_cost(self, call, place):
        if place is None:
            return "–"
        now, old = self.cost(call, place), self.before.get(self.call_key(call, place))
        return counted(now) if old is None or old == now else f"{whole(old)} → {counted(now)}"

    # ---- the report ----

    def add(self, name, title, body):
        self.sections[name] = (title, body)

    def text(self):
        return "\n\n".join(f"### {title}\n\n{body}" for title, body in self.sections.values())

    def save(self, folder):
        with open(os.path.join(folder, "results.json"), "w") as file:
            json.dump(self.results, file, indent=1, sort_keys=True)
            file.write("\n")
        with open(os.path.join(folder, "report.md"), "w") as file:
            file.write(self.text() + "\n")

    def fill(self, path):
        """Puts each section into a document, between the comments with its name."""
        with open(path) as file:
            text = file.read()
        for name, (_, body) in self.sections.items():
            place = re.compile(rf"(<!-- {name} -->\n).*?(<!-- end -->)", re.DOTALL)
            text = place.sub(lambda found, body=body: found.group(1) + "\n" + body + "\n\n" + found.group(2), text)
        with open(path, "w") as file:
            file.write(text)
