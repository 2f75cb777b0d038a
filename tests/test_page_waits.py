"""Who waits for whom, as the page works it out: compared with the client's own words and with all pairs of claims, on random queues."""

import itertools
import json
import random
import tempfile
import time
import unittest
from datetime import datetime, timedelta, timezone
from pathlib import Path
from typing import Dict, List, Set

from page_server import PageServer, until
from with_page import PART, WithPage

from vault.protocol.queue import ring
from vault.protocol.standing import Holder
from vaultd_tools.files import Claim
from vaultd_tools.page.line import meeting
from vaultd_tools.page.model import Since
from vaultd_tools.page.rows import Rows, who_is_at
from vaultd_tools.page.times import Times
from vaultd_tools.page.waits import Line

PLACES = ("/", "/a", "/a/b", "/a/b/c", "/a/b/d", "/e", "/e/f", "/e/f/g")


def queue(moments: random.Random, number: int) -> List[Claim]:
    """A queue as a server would have it: each claim is behind the first before it that it meets."""
    found: List[Claim] = []
    for name in range(1, number + 1):
        items = tuple(moments.choice("rrw") + ":" + moments.choice(PLACES[1:] + PLACES[2:]) for _ in range(moments.randint(1, 2)))
        claim = Claim(f"c{name}", moments.choice("pqrstu"), None, items)
        behind = next((other.name for other in found if meeting(other, claim)), None)
        found.append(Claim(claim.name, claim.owner, behind, items))
    return found


class Waits(unittest.TestCase):
    """The whole queue, worked out."""

    def test_rings_as_the_client_tells_them(self) -> None:
        """A designer's wait is part of a ring exactly where `vault wait` tells one of it; each ring that is told is one, and all designers of
        rings are in one that is told."""
        moments, ringed = random.Random(98), 0
        for _ in range(300):
            claims = queue(moments, moments.randint(2, 14))
            line = Line.of(claims)
            holders = [Holder(claim.name, claim.owner, claim.behind is None, claim.items, claim.behind or "") for claim in claims]
            by_client = {claim.owner for claim in claims if ring(holders, claim.name)}
            self.assertEqual(set(line.ringed), by_client, claims)
            self.assertEqual({wait.waiting.owner for told in line.rings for wait in told}, by_client)
            for told in line.rings:
                ringed += 1
                for wait, after in zip(told, told[1:] + told[:1]):
                    self.assertEqual(wait.waiting.owner, after.before.owner)
                    self.assertTrue(wait.place == meeting(wait.before, wait.waiting) and line.at[wait.before.name] < line.at[wait.waiting.name])
        self.assertGreater(ringed, 50)

    def test_who_stops_whom(self) -> None:
        """Each waiting claim stands behind each held claim that it meets, or where there is none behind the one that it is queued behind; no
        wait is left out."""
        moments = random.Random(99)
        for _ in range(100):
            claims = queue(moments, 12)
            line = Line.of(claims)
            shown: Set[str] = set()
            for blocker in line.blockers():
                behind = {one.wait.waiting.name: one for one in line.stopped(blocker)}
                direct = {claim.name for claim in claims if claim.behind and meeting(blocker, claim)}
                self.assertEqual(direct, {name for name, one in behind.items() if one.level == 0})
                shown.update(behind)
            self.assertEqual(shown, {claim.name for claim in claims if claim.behind})
            self.assertEqual({claim.name for claim in line.free()} & {claim.name for claim in line.blockers()}, set())
            for claim in claims:
                met = {item for item, other in itertools.product(claim.items, line.before(claim) + line.after(claim))
                       if meeting(Claim("c0", "x", None, (item,)), other)}
                self.assertEqual(line.contested(claim), met)

    def test_the_longest_first(self) -> None:
        """Who keeps somebody waiting for longest is first, whatever the order of the queue."""
        claims = [Claim("c1", "anna", None, ("w:/a",)), Claim("c2", "ben", None, ("w:/e",)), Claim("c3", "cara", "c1", ("w:/a",)),
                  Claim("c4", "deniz", "c2", ("w:/e/f",)), Claim("c5", "eva", "c2", ("r:/e",)), Claim("c6", "finn", None, ("w:/x",))]
        since: Dict[str, Since] = {name: Since(datetime.fromtimestamp(at, timezone.utc), True)
                                   for name, at in (("c1", 1), ("c2", 2), ("c3", 9), ("c4", 7), ("c5", 5))}
        rows = Rows(Line.of(claims), since)
        found = rows.blockers()
        self.assertEqual([(row.claim.name, row.since and row.since.timestamp(), [one.name for one in row.stopped]) for row in found],
                         [("c2", 5.0, ["c4", "c5"]), ("c1", 9.0, ["c3"])])
        self.assertEqual([(one.way.place, one.wants.contested) for one in found[0].stopped], [("/e/f", True), ("/e", True)])
        self.assertEqual(list(rows.free()), ["finn"])
        self.assertEqual([(row.name, row.held, row.queued, row.waiting) for row in rows.designers()][:4],
                         [("anna", 1, 0, 1), ("ben", 1, 0, 2), ("cara", 0, 1, 0), ("deniz", 0, 1, 1)])
        self.assertEqual((who_is_at(claims, "/e/f").change, who_is_at(claims, "/e/f").waits), (("ben",), ("deniz", "eva")))

    def test_a_full_queue(self) -> None:
        """256 claims of one place are worked out within a tenth of a second, and one row tells how many more there are."""
        claims = [Claim("c1", "anna", None, ("w:/a",))] + [Claim(f"c{n}", f"d{n % 50}", "c1", ("w:/a/b", "r:/e")) for n in range(2, 257)]
        begun = time.process_time()
        rows = Rows(Line.of(claims), {})
        row = rows.blockers()[0]
        self.assertLess(time.process_time() - begun, 0.5)
        self.assertEqual((row.claim.waiting, len(row.stopped), row.more), (255, 12, 243))


class Kept(unittest.TestCase):
    """Since when check-outs are known, over restarts."""

    def setUp(self) -> None:
        folder = tempfile.TemporaryDirectory(prefix="vault-test-")
        self.addCleanup(folder.cleanup)
        self.folder = Path(folder.name)
        self.claim = Claim("c1", "anna", None, ("w:/a", "r:/e"))
        self.since = Since(datetime(2026, 11, 2, 3, 4, 5, tzinfo=timezone.utc), True)

    def test_kept(self) -> None:
        """A check-out of the same designer with at least what it had is the one that was known."""
        times = Times(self.folder)
        times.keep([self.claim, Claim("h1", "anna", None, ("r:/a",))], {"c1": self.since, "h1": self.since})
        times.write()
        again = Times(self.folder)
        self.assertEqual(again.recalled(Claim("c1", "anna", None, ("w:/a", "r:/e", "r:/x"))), self.since)
        for other in (Claim("c1", "ben", None, self.claim.items), Claim("c1", "anna", None, ("w:/a",)), Claim("c2", "anna", None, self.claim.items),
                      Claim("h1", "anna", None, ("r:/a",))):
            self.assertIsNone(again.recalled(other))

    def test_no_file_of_the_page(self) -> None:
        """Whatever lies there counts for nothing, and is written anew."""
        for content in (b"", b"[]", b"{", b'{"c1": 1}', b'{"c1": {"owner": "anna", "items": ["w:/a"], "since": "x", "exact": true}}', b"\xff" * 9):
            (self.folder / "since.json").write_bytes(content)
            with self.assertLogs(level="WARNING"):
                times = Times(self.folder)
            self.assertEqual(times.known, {})
        times.keep([self.claim], {"c1": self.since})
        times.write()
        self.assertEqual(list(json.loads((self.folder / "since.json").read_text("ascii"))), ["c1"])

    def test_no_room(self) -> None:
        """If it can't be written that is said once, and nothing else changes."""
        times = Times(self.folder / "none")
        times.keep([self.claim], {"c1": self.since})
        with self.assertLogs(level="WARNING"):
            times.write()
        times.write()

    def test_the_gates_log(self) -> None:
        """The log's time counts before the page's own; what is added later is read on, and a rotated log from its beginning."""
        line = ("2026-11-0{}T01:02:03.000004Z id=00000000000000a{}.1 vault=127.0.0.1:7070 from=- key=- by=anna as=anna told checkout w:/a r:/e"
                " -> OK {} c1\n")
        log = self.folder / "log"
        log.write_text("what is no line\n" + line.format(1, 1, "held") + line.format(2, 2, "queued")[:40], "ascii")
        times = Times(None, log)
        times.read_log()
        self.assertEqual(times.recalled(self.claim), Since(datetime(2026, 11, 1, 1, 2, 3, tzinfo=timezone.utc), True))
        with log.open("a", encoding="ascii") as file:
            file.write("\n" + line.format(3, 3, "held"))
        times.read_log()
        self.assertEqual(times.recalled(self.claim), Since(datetime(2026, 11, 3, 1, 2, 3, tzinfo=timezone.utc), True))
        log.rename(self.folder / "log.1")
        log.write_text(line.format(4, 4, "held"), "ascii")
        times.read_log()
        self.assertEqual(times.recalled(self.claim), Since(datetime(2026, 11, 4, 1, 2, 3, tzinfo=timezone.utc), True))


class Restart(WithPage):
    """The page's program is started again."""

    def test_old_check_outs(self) -> None:
        """Those older than so many days are told, the oldest first, by the gate's log; of how many that isn't known, too."""
        items = ("r:" + PART, "r:/engine", "r:/engine/block")
        for item in items:
            self.anna.checkout([item])
        line = "{} id=00000000000000a{}.1 vault=127.0.0.1:7070 from=- key=- by=anna as=anna told checkout {} -> OK held c{}\n"
        log, today = self.folder / "gate.log", datetime.now(timezone.utc)
        log.write_text("".join(line.format((today - timedelta(days=age)).strftime("%Y-%m-%dT%H:%M:%S.000000Z"), claim, item, claim)
                               for claim, age, item in ((2, 9, items[0]), (3, 30, items[1]))), "ascii")
        self.page.end()
        self.page = PageServer(self.tap.port, "--gate-log", str(log))
        self.addCleanup(lambda: self.page.end())
        self.assertRegex(self.text("/.old?days=8"), r"2 check-outs are older than 8 days; the oldest first. Of 1 more it isn’t known since when .*"
                                                    r" anna c3 30 held look at /engine .* anna c2 9 held look at " + PART)
        self.assertEqual([row["claim"] for row in json.loads(self.page.page("/.old?days=10&as=json"))], ["c3"])
        self.assertIn("0 check-outs are older than 31 days", self.text("/.old?days=31"))
        self.assertEqual([self.page.get("/.old?days=" + days)[0] for days in ("", "x", "-1", "99999999", "0")], [200] * 5)

    def test_the_timeline(self) -> None:
        """What was done before the page was started is told from the logs, by place and designer, and what is done meanwhile is read on."""
        line = ("2026-11-0{}T01:02:03.000004Z id=00000000000000a{}.1 vault={} from=192.0.2.7 key=SHA256:{} by={} as=anna told {}\n")
        vault, key = f"127.0.0.1:{self.tap.port}", "A" * 43
        log, before = self.folder / "gate.log", self.folder / "gate.log.1"
        before.write_text(line.format(1, 1, vault, key, "anna", "make /engine -> OK place"), "ascii")
        log.write_text("".join(line.format(number + 2, number + 2, where, key, by, said) for number, (where, by, said) in enumerate((
            (vault, "anna", f"checkout w:{PART} -> OK held c7"), ("127.0.0.1:1", "anna", "make /elsewhere -> OK place"),
            (vault, "ben", f"save c7 {PART} (9 bytes) -> OK saved"), (vault, "anna", "checkin c7 -> OK checked in 1"),
            (vault, "anna", "make /refused -> ERR 21")))), "ascii")
        self.page.end()
        self.page = PageServer(self.tap.port, "--gate-log", str(log))
        self.addCleanup(lambda: self.page.end())
        self.assertRegex(self.text("/.timeline"), rf"3 changes, the last one first.* checked in c7 \(change {PART}\): 1 new version"
                                                  rf" 2026-11-02 01:02 UTC an anna took c7 to change {PART}: held"
                                                  r" 2026-11-01 01:02 UTC an anna made /engine This table")
        self.assertIn("saved " + PART, self.text("/.timeline?all=1&at=/engine/block"))
        self.assertRegex(self.text("/.timeline?by=ben&all=1"), "1 change, .* an anna by ben saved")
        self.assertIn("0 changes", self.text("/.timeline?at=/wing"))
        with log.open("a", encoding="ascii") as file:
            file.write(line.format(9, 9, vault, key, "anna", "make /wing -> OK place"))
        rows = json.loads(self.page.page("/.timeline?at=/&as=json"))
        self.assertEqual([(row["time"], row["command"]) for row in rows][:2], [("2026-11-09T01:02:03Z", "make"), ("2026-11-05T01:02:03Z", "checkin")])
        self.page.end()
        self.page = PageServer(self.tap.port)
        self.assertIn("This page reads no log.", self.text("/.timeline"))

    def test_since(self) -> None:
        """It knows since when it has known a check-out; without a folder for that it says that it was there before."""
        self.page.end()
        state = self.folder / "page"
        state.mkdir()
        self.page = PageServer(self.tap.port, "--state", str(state))
        self.addCleanup(lambda: self.page.end())
        stream = self.stream("/")
        self.anna.checkout(["w:" + PART])
        stream.change('line:c2')
        until(lambda: (state / "since.json").exists() and "c2" in (state / "since.json").read_text("ascii"), 5)
        self.page.end()
        self.page = PageServer(self.tap.port, "--state", str(state))
        self.assertRegex(self.text("/.claim/c2"), r"anna holds it since 20")
        self.page.end()
        self.page = PageServer(self.tap.port)
        self.assertRegex(self.text("/.claim/c2"), r"anna holds it since before 20")


if __name__ == "__main__":
    unittest.main()
