#!/usr/bin/env python3
"""Tries the board in Chromium without a window, and takes pictures of it for someone to look at.

    bench/board.py FOLDER [NAME ..]       pictures go to FOLDER; NAMEs of trials, all if not said

FINDER names the program, CHROMIUM the browser, which Debian has as `chromium`. Each trial is a line, with what failed;
the status is 1 where one did, or where the page broke its policy or wrote a fault to the console. All is on loopback.

    list        searches of each standing, in light and dark, with names that look like markup
    forty       a search of 40 suspects, from its first run to its order
    thousand    a search of 1,000 suspects
    moves       a search that moves while its page is open, and its evidence
    many        2,000 searches: how long the list takes, and the filter
    faults      a service that is away, that is slow, that answers 503
"""
import base64
import fcntl
import hashlib
import json
import os
import subprocess
import sys
import tempfile
import time

ROOT = os.path.dirname(os.path.dirname(os.path.abspath(__file__)))
PROGRAM = os.path.abspath(os.environ.get("FINDER") or
                          os.path.join(ROOT, "crates", "culprit_finder", "out", "culprit_finder"))
os.environ["CULPRIT_FINDER"] = PROGRAM
sys.dont_write_bytecode = True
sys.path.insert(0, os.path.join(ROOT, "tools"))

import case_farm  # noqa: E402
from case_board import Front  # noqa: E402

BROWSER = os.environ.get("CHROMIUM", "chromium")
NAMES = ("//db:migration_test", "<script>document.title='broken'</script>", "\"quotes\" & 'more' <b>bold</b>",
         "in UTF-8", "reordered", "//checkout:" + "a_very_long_name/" * 9)
# Names of this program are of ASCII alone. What another one had, the front puts in.
OTHERS = {"in UTF-8": "tests/test_käse.py::test_größe[ß-日本語]", "reordered": "right\u202eto left"}
faults = []


def commit(number):
    """A commit id that looks like one."""
    return hashlib.sha1(str(number).encode()).hexdigest()


class Browser:
    """Chromium, asked over pipes by its DevTools protocol."""

    def __init__(self, folder):
        here, there = os.pipe(), os.pipe()
        ends = [fcntl.fcntl(end, fcntl.F_DUPFD, 10) for end in (here[0], there[1])]

        def give():
            os.dup2(ends[0], 3)
            os.dup2(ends[1], 4)

        words = [BROWSER, "--headless=new", "--no-sandbox", "--disable-gpu", "--hide-scrollbars", "--no-first-run",
                 "--disable-extensions", "--no-proxy-server", f"--user-data-dir={folder}", "--remote-debugging-pipe",
                 "about:blank"]
        self.process = subprocess.Popen(words, pass_fds=(3, 4), preexec_fn=give, stdin=subprocess.DEVNULL,
                                        stdout=subprocess.DEVNULL, stderr=subprocess.DEVNULL)
        for end in (here[0], there[1], *ends):
            os.close(end)
        self.to, self.of, self.held = os.fdopen(here[1], "wb"), there[0], b""
        self.number, self.session, self.events = 0, None, []
        targets = self.ask("Target.getTargets")["targetInfos"]
        page = next(target["targetId"] for target in targets if target["type"] == "page")
        self.session = self.ask("Target.attachToTarget", targetId=page, flatten=True)["sessionId"]
        for domain in ("Page", "Runtime", "Log"):
            self.ask(f"{domain}.enable")
        self.size(1280, 1000)

    def ask(self, method, **given):
        """The answer to a call. What the page tells meanwhile is kept."""
        self.number += 1
        call = {"id": self.number, "method": method, "params": given}
        self.to.write(json.dumps({**call, **({"sessionId": self.session} if self.session else {})}).encode() + b"\0")
        self.to.flush()
        while True:
            told = json.loads(self.line())
            if told.get("id") == self.number:
                if "error" in told:
                    raise RuntimeError(f"{method}: {told['error']}")
                return told["result"]
            self.events.append(told)

    def line(self):
        """What comes up to the next zero byte."""
        while b"\0" not in self.held:
            more = os.read(self.of, 1 << 20)
            if not more:
                raise RuntimeError(f"{BROWSER} has ended")
            self.held += more
        line, _, self.held = self.held.partition(b"\0")
        return line

    def size(self, width, height):
        """The size of the window."""
        self.ask("Emulation.setDeviceMetricsOverride", width=width, height=height, deviceScaleFactor=1, mobile=False)

    def dark(self, is_dark):
        """Whether the page is to be dark."""
        features = [{"name": "prefers-color-scheme", "value": "dark" if is_dark else "light"}]
        self.ask("Emulation.setEmulatedMedia", features=features)

    def value(self, script):
        """What an expression of the page comes to."""
        told = self.ask("Runtime.evaluate", expression=script, returnByValue=True, awaitPromise=True)
        if "exceptionDetails" in told:
            raise RuntimeError(f"{script}: {told['exceptionDetails']}")
        return told["result"].get("value")

    def wait(self, script, seconds=60):
        """Waits until an expression of the page is true; how long that took."""
        began = time.monotonic()
        while not self.value(script):
            if time.monotonic() - began > seconds:
                text = self.value("document.body.innerText.slice(0, 600)")
                raise RuntimeError(f"not true within {seconds} s: {script}; the page says {text!r}")
            time.sleep(0.05)
        return time.monotonic() - began

    def picture(self, path, whole=True):
        """Takes a picture of the page, or of the window."""
        shot = self.ask("Page.captureScreenshot", format="png", captureBeyondViewport=whole)
        with open(path, "wb") as file:
            file.write(base64.b64decode(shot["data"]))

    def complaints(self):
        """What the page wrote to the console, and where it broke its policy, since this was asked last. That a request
        failed is no complaint: the page says it itself."""
        self.value("1")
        said = []
        for event in self.events:
            if event.get("method") == "Runtime.exceptionThrown":
                said.append(event["params"]["exceptionDetails"].get("exception", {}).get("description", "a fault"))
            elif event.get("method") == "Log.entryAdded" and event["params"]["entry"]["source"] != "network":
                said.append(event["params"]["entry"]["text"])
            elif event.get("method") == "Runtime.consoleAPICalled":
                said.append(str(event["params"]["args"]))
        self.events = []
        return said

    def end(self):
        """Ends it."""
        self.process.kill()
        self.process.wait()


class Place:
    """A farm that is served, a front before it, a board over that, and a page in a browser."""

    def __init__(self, browser, folder, pictures):
        self.browser, self.folder, self.pictures = browser, folder, pictures
        self.farm = case_farm.Farm(os.path.join(folder, "farm.journal"))
        self.keys = 0

    def opened(self, count, test=NAMES[0], first=0, **more):
        """Opens a search of suspects that are a first commit and those behind it."""
        suspects = [[commit(first + index), 1] for index in range(1, count + 1)]
        given = {"calm": count, "rate": [1, 20], "bar": [9999, 10_000], "width": 1, "reruns": 1, **more}
        return self.farm.ask("open", test=test, base=commit(first), suspects=suspects, **given)["search"]

    def serve(self):
        """Ends the script's farm, and serves its journal."""
        self.farm.close()
        self.service = case_farm.Service(self.farm.journal)
        self.front = Front(self.service.url)
        self.front.names = OTHERS
        words = [sys.executable, "-ISB", os.path.join(ROOT, "tools", "board"), self.front.url, "127.0.0.1:0"]
        self.board = subprocess.Popen(words, stderr=subprocess.PIPE, text=True)
        self.url = self.board.stderr.readline().split()[2]

    def go(self, view=""):
        """Opens a view of the board, as by its address; how long it took until it stood."""
        began = time.monotonic()
        self.browser.ask("Page.navigate", url="about:blank")
        self.browser.ask("Page.navigate", url=self.url + view)
        self.browser.wait("document.querySelector('main') && document.querySelector('main').children.length > 0")
        return time.monotonic() - began

    def picture(self, name, whole=True):
        """Takes a picture."""
        self.browser.picture(os.path.join(self.pictures, f"{name}.png"), whole)

    def end(self):
        """Ends all of it."""
        self.board.kill()
        self.board.wait()
        self.front.close()
        self.service.close()


def expect(is_so, text):
    """Notes a fault unless something is so."""
    if not is_so:
        faults.append(text)
        print(f"  FAULT: {text}")


def wobbly(culprit, count):
    """Verdicts of a test that flakes at times: a culprit's number, and flakes that depend on the run alone."""
    def verdict(lease):
        flaked = lease["stage"] == "search" and hashlib.sha1(f"{lease['run']} {count}".encode()).digest()[0] < 13
        return "fail" if lease["position"] >= culprit or flaked else "pass"
    return verdict


def make(farm, runs, verdict):
    """Makes so many of the next runs."""
    for _ in range(runs):
        lease = farm.lease("bot 7")
        farm.report(lease["run"], verdict(lease))


def try_list(place):
    """Searches of each standing."""
    farm = place.farm
    for index in range(36):
        place.opened(8 + 7 * index % 50, NAMES[index % len(NAMES)], 1000 * index)
        if index % 6 == 5:
            farm.ask("cancel", search=index + 1)
        else:
            culprit = (3, 5, 2, 99, 7)[index % 5]
            farm.play(lambda lease: "skip" if index % 7 == 2 else wobbly(culprit, index)(lease))
        farm.at += 1_234_567
    for index in range(4):
        farm.ask("revert", agent="release <b>bot</b>")
    place.opened(40, NAMES[3], 77_000)
    make(farm, 3, wobbly(9, 1))
    place.serve()
    place.go()
    browser = place.browser
    browser.wait("document.querySelectorAll('main tbody tr').length === 37")
    shown = browser.value("[...document.querySelectorAll('td.x')].map(it => it.textContent)")
    for name in NAMES:
        expect(OTHERS.get(name, name).replace("\u202e", "\ufffd") in shown, f"the list doesn't show {name!r} as it is")
    expect(browser.value("document.title") == "Culprits", "a name has set the title")
    expect(browser.value("document.querySelectorAll('main b, main script').length") == 0, "a name has become markup")
    place.picture("list_light")
    browser.dark(True)
    place.picture("list_dark")
    browser.dark(False)
    place.go("#/orders")
    browser.wait("document.querySelectorAll('main tbody tr').length === 4")
    place.picture("orders")
    browser.size(420, 800)
    place.go()
    place.picture("list_narrow", False)
    browser.size(1280, 1000)


def try_forty(place):
    """A search of 40 suspects."""
    place.opened(40)
    place.farm.play(wobbly(23, 40))
    place.farm.ask("revert", agent="release")
    place.opened(40, first=1000)
    make(place.farm, 4, wobbly(31, 1))
    place.opened(40, NAMES[1], first=2000, width=3)
    runs = [place.farm.lease() for _ in range(8)]
    for run in [run for run in runs if run.get("search") == 3][:2]:
        place.farm.report(run["run"], "skip")
    place.serve()
    for number in (1, 2, 3):
        place.go(f"#/{number}")
        place.picture(f"forty_{number}")
    said = place.browser.value("(location.hash = '#/1', new Promise(done => setTimeout(() => "
                               "done(document.querySelector('.said').textContent), 4000)))")
    expect(said.startswith("Suspect 23 broke it: 9"), f"a confirmed search says {said!r}")
    place.browser.dark(True)
    place.picture("forty_dark")
    place.browser.dark(False)


def try_thousand(place):
    """A search of 1,000 suspects."""
    place.opened(1000)
    place.farm.play(wobbly(737, 1000))
    place.opened(1000, first=5000)
    make(place.farm, 3, wobbly(600, 1))
    place.serve()
    for number in (1, 2):
        took = place.go(f"#/{number}")
        print(f"  search {number} of 1,000 suspects stood after {took:.1f} s")
        place.picture(f"thousand_{number}")
    expect(place.browser.value("document.querySelectorAll('svg.belief rect').length") == 1001, "a bar is missing")


def try_moves(place):
    """A search that moves while its page is open."""
    number = place.opened(12, NAMES[2])
    place.serve()
    place.go(f"#/{number}")
    browser, service = place.browser, place.service
    browser.value("document.querySelector('summary').click()")
    browser.wait("document.querySelector('pre').textContent.startsWith('search ')")
    browser.value("window.kept = document.querySelector('pre')")
    for turn in range(4):
        lease = service.post("/v1/leases", worker="w")
        service.post(f"/v1/runs/{lease['run']}/report", verdict="fail" if lease["position"] >= 5 else "pass")
        took = browser.wait(f"document.querySelectorAll('main .wide:nth-of-type(1) tbody, tbody').length && "
                            f"[...document.querySelectorAll('tbody tr')].length && "
                            f"document.querySelector('dl').textContent.includes('{turn + 1} counted of')", 20)
        browser.wait(f"document.querySelector('pre').textContent.includes('run {turn + 1} ')", 20)
        print(f"  run {turn + 1} stood there after {took:.1f} s")
    expect(browser.value("window.kept === document.querySelector('pre')"), "the page was made anew, and not renewed")
    text = browser.value("document.querySelector('pre').textContent")
    words = [sys.executable, "-ISB", os.path.join(ROOT, "tools", "explain"), "--url", service.url, str(number),
             "--evidence"]
    expect(subprocess.run(words, capture_output=True, text=True, check=True).stdout == text,
           "the evidence is another than explain's")
    judged = subprocess.run([PROGRAM, "judge"], input=text, capture_output=True, text=True, check=True).stdout
    expect("standing searching" in judged, "judge reads the evidence otherwise")
    browser.value("document.querySelector('button').click()")
    browser.wait("document.querySelector('button').textContent === 'Copied'", 5)
    place.picture("moves")


def try_many(place):
    """2,000 searches."""
    suspects = [[commit(index), 1] for index in range(1, 9)]
    for index in range(2000):
        place.farm.ask("open", test=f"//service/{index % 97}:test_{index}", base=commit(0), suspects=suspects, calm=8,
                       rate=[1, 20], bar=[9999, 10_000], width=1, reruns=1)
        if 0 < index < 1990:
            place.farm.ask("cancel", search=index + 1)
    place.serve()
    browser = place.browser
    took = place.go()
    print(f"  the first list of 2,000 stood after {took:.1f} s")
    expect(browser.value("document.querySelectorAll('tbody tr').length") == 200, "not 200 rows")
    place.picture("many", False)
    browser.value("document.querySelector('main > button').click()")
    browser.wait("document.querySelectorAll('tbody tr').length === 2000")
    place.front.asked.clear()
    browser.value("(it => { it.value = 'test_1999'; it.dispatchEvent(new Event('input')); })"
                  "(document.querySelector('input'))")
    browser.wait("document.querySelectorAll('tbody tr').length === 1")
    while place.front.asked.count("/v1/totals") < 4:
        time.sleep(1)
    asked = len([path for path in place.front.asked if path != "/v1/totals"])
    expect(asked <= 20, f"it asked for {asked} pages though nothing had moved, where 20 are once a minute's")
    place.service.post("/v1/searches/1/cancel")
    browser.value("(it => { it.value = ''; it.dispatchEvent(new Event('input')); })(document.querySelector('input'))")
    place.front.asked.clear()
    took = browser.wait("document.querySelector('tbody tr:last-child').textContent.includes('cancelled')", 60)
    asked = len([path for path in place.front.asked if path.startswith("/v1/list/")])
    print(f"  a change among 2,000 stood there after {took:.1f} s and {asked} pages")
    expect(asked <= 20 if took > 30 else asked <= 2, "it asked for pages that can't have moved")


def try_faults(place):
    """A service that fails."""
    place.opened(12)
    place.farm.report(place.farm.lease()["run"], "fail")
    place.serve()
    browser, front = place.browser, place.front
    place.go()
    state = "document.getElementById('state').textContent"
    front.fault = 503
    browser.wait(f"{state}.includes('the service answers with status 503')", 20)
    expect(browser.value("document.querySelectorAll('tbody tr').length") == 1, "what was shown is gone")
    place.picture("away", False)
    front.fault = 3
    browser.wait(f"{state}.startsWith('as of')", 30)
    front.fault = 30
    browser.wait(f"{state}.includes(\"the service doesn't answer: timed out\")", 60)
    front.fault = None
    browser.wait(f"{state}.startsWith('as of')", 60)
    port = place.service.port
    place.service.close()
    browser.wait(f"{state}.includes(\"the service doesn't answer\")", 30)
    place.service = case_farm.Service(place.farm.journal, port)
    browser.wait(f"{state}.startsWith('as of')", 30)
    place.board.kill()
    browser.wait(f"{state}.includes(\"the board doesn't answer\")", 30)
    place.picture("no_board", False)


def main(words):
    """Makes the trials; the status."""
    trials = {name[4:]: trial for name, trial in globals().items() if name.startswith("try_")}
    if not words or set(words[1:]) - trials.keys():
        sys.exit(__doc__)
    os.makedirs(words[0], exist_ok=True)
    for name in words[1:] or trials:
        print(name, flush=True)
        with tempfile.TemporaryDirectory(ignore_cleanup_errors=True) as folder:
            browser = Browser(os.path.join(folder, "browser"))
            place = Place(browser, folder, os.path.abspath(words[0]))
            try:
                trials[name](place)
                for complaint in browser.complaints():
                    expect(False, f"the page complains: {complaint}")
            except RuntimeError as fault:
                expect(False, str(fault))
                place.picture(f"{name}_fault", False)
            finally:
                browser.end()
                if hasattr(place, "board"):
                    place.end()
    print(f"{len(faults)} faults")
    return 1 if faults else 0


if __name__ == "__main__":
    sys.exit(main(sys.argv[1:]))
