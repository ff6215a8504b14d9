"""What would change: recorded requests of a journal under the model in force and another one."""

from __future__ import annotations

import collections
import csv
import http.client
import json
import re
import urllib.parse
from pathlib import Path

HERE = Path(__file__).resolve().parent.parent.parent
PARCEL = HERE / "examples" / "parcel.json"
NEWER = HERE / "examples" / "cases" / "parcel.new.json"
REQUESTS = [{"weight": n % 7, "express": n % 3 == 0} for n in range(1400)]
# Reads what the page says of a trial.
SAID = """const texts = (of) => [...document.querySelectorAll(of)].map((it) => it.textContent);
    return {said: document.getElementById("trial-said").textContent, by: texts("#trial-by li"),
        changes: [...document.querySelectorAll("#trial-changes tbody tr:not(.space)")].map((it) =>
            [...it.children].map((part) => part.textContent))};"""


def rule(it: dict, is_new: bool) -> tuple[int | None, int]:
    """The price of a parcel and the rule that decides, by both models; worked out from their tables."""
    weight, express = it["weight"], it["express"]
    if weight <= 2:
        return (950 if is_new else 900, 2) if express else (500, 1)
    if express:
        return 900 + (weight - 2) * 250, 4
    return (None, 0) if is_new and weight <= 3 else (500 + (weight - 2) * 150, 3)


def differing(requests: list[dict]) -> list[tuple[dict, int | None, int | None, str]]:
    """Each request that differs, with both answers and by which rules."""
    found = []
    for it in requests:
        (old, before), (new, after) = rule(it, False), rule(it, True)
        if old != new:
            how = ", as before" if before == after else " -> none"
            found.append((it, old, new, f"price: rule {before}{how}"))
    return found


class Trials:
    def __init__(self, suite) -> None:
        self.suite, self.browser = suite, suite.browser
        folder = suite.folder / "trials"
        folder.mkdir()
        releases = folder / "releases"
        releases.mkdir()
        self.service = suite.service("trial", PARCEL, "--journal", str(folder / "journal"), "--releases", str(releases))
        status, said = self.send("POST", "/v1/services/shipping", json.dumps(REQUESTS))
        assert status == 200, said

    def send(self, method: str, path: str, body: str) -> tuple[int, bytes]:
        while True:
            on = http.client.HTTPConnection("127.0.0.1", self.service.port, timeout=600)
            try:
                on.request(method, path, body)
                break
            except BrokenPipeError:
                # On a busy machine the head came too late: nothing was taken, and nothing is recorded.
                on.close()
        answer = on.getresponse()
        return answer.status, answer.read()

    def open(self) -> None:
        """Opens the page, and the section on it."""
        self.browser.open(self.service)
        self.unfold()

    def unfold(self) -> None:
        """Opens the section, and waits until it has the models."""
        self.browser.js("document.getElementById('trial').open = true")
        count = "return document.getElementById('trial-model').options.length"
        self.browser.wait(lambda: self.browser.js(count) > 0, "the models")

    def drop(self) -> None:
        """Drops the changed model on the page."""
        self.browser.drop("parcel.new.json", NEWER.read_text())
        self.browser.wait(lambda: "has no fault" in self.browser.text("changed"), "the changed model")

    def said(self, text: str) -> None:
        """Waits until the section says something."""
        self.browser.wait(lambda: text in self.browser.text("trial-said"), text)

    def ask(self, **words: str) -> dict:
        """Asks both models, and gives what the page says in the end."""
        self.browser.js("""for (const it of document.querySelectorAll("#trial-form input")) it.value = "";
            for (const [word, value] of Object.entries(arguments[0])) {
                document.getElementById("trial-" + word).value = value;
            }
            document.getElementById("trial-ask").click();""", words)
        self.browser.wait(lambda: " s." in self.browser.text("trial-said"), "what was found")
        self.browser.drawn()
        return self.browser.js(SAID)

    def changed(self) -> str:
        """A changed model that is dropped, over all requests: counts, rules, cells that changed, the list, and CSV."""
        self.open()
        self.drop()
        due = differing(REQUESTS)
        got = self.ask(model="")
        assert f"{len(REQUESTS):,} requests, {len(due):,} with another answer, in " in got["said"], got
        counts = collections.Counter(it[3] for it in due).most_common()
        assert got["by"] == [f"{count}: {rules}" for rules, count in counts], (got["by"], counts)
        cells = [["price", "changed cell rule 2, price", "900", "950"],
                 ["price", "changed cell rule 3, weight", "> 2", "> 3"]]
        assert got["changes"] == cells, got["changes"]
        self.listed(due)
        self.saved(due)
        return f"{len(due)} of {len(REQUESTS)}"

    def listed(self, due: list) -> None:
        """The first that differ, in their order; a click fills the form with one."""
        first = self.browser.js("""const row = document.querySelector("#trial-list tbody tr:not(.space)");
            return [...row.children].map((it) => it.textContent).slice(1)""")
        request, old, new, rules = due[0]
        assert first == [rules, json.dumps(old), json.dumps(new)], (first, due[0])
        self.browser.js("document.querySelector('#trial-list [data-at]').click()")
        shown = "return document.getElementById('json').value || '{}'"
        self.browser.wait(lambda: json.loads(str(self.browser.js(shown))) == request, "its inputs")

    def saved(self, due: list) -> None:
        """The CSV has all that differ."""
        for old in self.browser.downloads.iterdir():
            old.unlink()
        self.browser.js("document.getElementById('trial-csv').click()")
        path = self.browser.wait(lambda: list(self.browser.downloads.glob("*.csv")), "the file")[0]
        with open(path, newline="", encoding="utf-8") as file:
            rows = [(json.loads(row["inputs"]), row["old"], row["new"], row["rules"]) for row in csv.DictReader(file)]
        assert rows == [(it, json.dumps(one), json.dumps(other), rules) for it, one, other, rules in due], rows[:3]

    def release(self) -> str:
        """A release of the folder, over the requests of one rule; and those of a time in which nothing was asked."""
        path = "/v1/model?" + urllib.parse.urlencode({"name": "parcel", "version": "2"})
        for version, file in (("2", NEWER), ("3", PARCEL)):
            status, said = self.send("PUT", path[:-1] + version, file.read_text())
            assert status == 200, said
        self.open()
        listed = "return [...document.getElementById('trial-model').options].map((it) => it.textContent)"
        names = self.browser.js(listed)
        assert names == ["the changed model on this page", "parcel 2", "parcel 3 (in force)"], names
        head = self.browser.js("return document.querySelector('header').textContent")
        assert re.search(r"parcel\b[^.]*\b3\b", head), f"the page says nothing of the release in force: {head}"
        due = differing([it for it in REQUESTS if rule(it, False)[1] == 3])
        got = self.ask(rule="price:3")
        assert f", {len(due)} with another answer, in " in got["said"], got
        assert got["by"] == [f"{len(due)}: price: rule 3 -> none"], got
        assert self.ask(to="2000")["said"].startswith("0 requests, 0 with another answer"), got
        return ""

    def refused(self) -> str:
        """Without a journal, and without a model, it says so; a time that is none finds nothing."""
        self.browser.open(self.suite.service("parcel.json"))
        self.unfold()
        self.browser.js("document.getElementById('trial-ask').click()")
        self.browser.wait(lambda: "Pick a release" in self.browser.text("alert"), "that a model is due")
        self.drop()
        self.browser.js("document.getElementById('trial-ask').click()")
        self.browser.wait(lambda: "no journal is kept" in self.browser.text("alert"), "that there is no journal")
        return ""

    def stopped(self) -> str:
        """What is under way can be stopped: what was found so far is said to be so."""
        self.open()
        self.drop()
        self.browser.js("""const whole = fetch;
            window.fetch = async (path, options) => {
                if (!String(path).startsWith("v1/trial")) return whole(path, options);
                const line = (value) => new TextEncoder().encode(JSON.stringify(value) + "\\n");
                return new Response(new ReadableStream({start(to) {
                    to.enqueue(line({old: {}, new: {}, changes: []}));
                    to.enqueue(line({asked: 2500}));
                    options.signal.addEventListener("abort", () => to.error(new DOMException("", "AbortError")));
                }}));
            };
            document.getElementById("trial-model").value = "";
            document.getElementById("trial-ask").click();""")
        self.said("2,500 requests asked by now")
        assert self.browser.js("return !document.querySelector('#trial progress').hidden")
        self.browser.js("document.getElementById('trial-stop').click()")
        self.said("It ended before all were asked. 2,500 requests")
        return ""


def run(suite) -> None:
    names = ("recorded requests under a changed model", "recorded requests under a release",
             "a trial that can't be made", "a trial that is stopped")
    if not any(map(suite.rows.wants, names)):
        return
    trials = Trials(suite)
    for name, test in zip(names, (trials.changed, trials.release, trials.refused, trials.stopped)):
        allowed = ("404 (Not Found)",) if test in (trials.refused,) else ()
        suite.row(name, test, *allowed)
