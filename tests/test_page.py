"""The live page by its program: what it reads, what it shows, and how it treats strangers."""

import asyncio
import contextlib
import csv
import gzip
import html
import io
import json
import re
import select
import shutil
import socket
import struct
import time
import unittest
from typing import Iterable, List
from unittest import mock

from page_server import PageServer, Stream, until
from servers import MEMORY, TOP, Server
from tries import told
from with_page import CARD, PART, WithPage, fill

from vault.store.card import Card
from vault.store.naming import name_place, spell_name
from vaultd_tools.page import doors, render, search, streams, views, watch, web
from vaultd_tools.page.model import Model
from vaultd_tools.page.render import address, in_bytes
from vaultd_tools.page.wire import QUESTIONS

KINDS = ("/", "/engine", "/engine/block", PART, "/designers", "/designers/anna", "/designers/nobody-yet", "/.search", "/.search?q=piston",
         "/.claim/c2", "/.branch?at=/engine", "/.blockers", "/.old", "/.old?days=0", "/.timeline", "/.timeline?at=/engine&by=anna")
STREAM = b"GET /.events?see=/ HTTP/1.1\r\nHost: 127.0.0.1\r\n\r\n"
UPGRADE = b"GET / HTTP/1.1\r\nHost: 127.0.0.1\r\nConnection: Upgrade\r\nUpgrade: websocket\r\n\r\n"
FROM_ELSEWHERE = r'(?:src|href|action)="(?!/|#)[^"]*"|="//|<style|<script>| style=| on[a-z]+='


class Reading(WithPage):
    """What each kind of page says, and that it changes nothing."""

    def test_kinds(self) -> None:
        """Each kind is there, with the headers that keep other pages out, and without one that lets them in."""
        self.anna.checkout(["w:" + PART])
        for path in (*KINDS, "/.static/page.css", "/.static/page.js", "/.static/stream.js", "/.static/icon.svg"):
            status, headers, body = self.page.get(path)
            self.assertEqual((path, status), (path, 200))
            self.assertIn("frame-ancestors 'none'", headers["content-security-policy"])
            self.assertTrue(headers["content-security-policy"].startswith("default-src 'none'; script-src 'self'; style-src 'self';"))
            self.assertEqual([name for name in headers if name.startswith("access-control")], [])
            self.assertEqual((headers["x-content-type-options"], headers["server"]), ("nosniff", "vaultd-page"))
            self.assertEqual(re.findall(FROM_ELSEWHERE, body) if path in KINDS else [], [])

    def test_a_part(self) -> None:
        """Its versions have number, time, author, size, name and note; a content that is no card has only its size."""
        self.check_in(b"v2")
        self.anna.checkout(["w:" + PART])
        text = self.text(PART)
        self.assertIn("1 2026-11-20 08:15 UTC an anna 48 MB Kolben <b>80</b>.SLDPRT bore & \\u202e80", text)
        self.assertIn("2 not kept not kept 2 bytes none", text)
        self.assertIn("anna has it for change", text)

    def test_many_versions(self) -> None:
        """The latest are shown, and links lead to those before."""
        for number in range(45):
            self.check_in(b"version %d" % number)
        latest = self.page.page(PART)
        self.assertEqual(re.findall(r'id="versions:(\d+)"', latest), [str(number) for number in range(46, 6, -1)])
        self.assertIn(f'href="{PART}?before=7"', latest)
        self.assertEqual(re.findall(r'id="versions:(\d+)"', self.page.page(PART + "?before=7")), ["6", "5", "4", "3", "2", "1"])
        self.assertEqual(re.findall(r'id="versions:(\d+)"', self.page.page(PART + "?before=46"))[0], "45")
        status, headers, _ = self.page.get(PART + "?before=47")
        self.assertEqual((status, headers.get("location")), (302, PART))
        self.assertIn('data-watch="/engine/block"', self.page.page("/engine/block?before=7"))

    def test_a_queue(self) -> None:
        """The library's page has the queue and the tree, a place's page the claims that concern it, a designer's all that is theirs."""
        self.anna.make("/wing")
        self.anna.checkout(["w:" + PART])
        self.anna.set_note("c2", b"<b>until Friday</b>")
        self.ben.checkout(["r:/engine/block"])
        self.ben.checkout(["w:/wing"])
        whole = self.text("/")
        for part in ("1 waiting 1 in the way 2 held 2 designers", "1 claim keeps 1 waiting; first what does so for longest.",
                     "an anna c2 holds stops 1 since", "change " + PART + " (contested)", "<b>until Friday</b>",
                     "be ben c3 waits to look at /engine/block for c2 of anna at " + PART + " (contested) since",
                     "1 claim is in nobody’s way, by designer. be ben 1 held /wing ben c4 held change /wing",
                     "2 projects, 1 assembly, 1 part.", "beneath: 1 held, 1 waiting", "beneath: 1 held"):
            self.assertIn(part, re.sub(r" +", " ", whole.replace("be ben c4", "ben c4")))
        self.assertNotIn("c4", self.text("/engine"))
        self.assertNotIn("c2", self.text("/wing"))
        self.assertIn("ben c3 waits for c2 ( anna )", self.text("/designers/ben"))
        self.assertIn("ben c4 held change /wing", self.text("/designers/ben"))
        self.assertRegex(self.text("/designers/anna"), r"c2 held change .* Who waits for them be ben c3")
        self.assertIn("nobody-yet has nothing checked out", self.text("/designers/nobody-yet"))
        self.assertRegex(self.text("/designers"), r"an anna 1 0 1 change \S+ \(contested\) be ben 1 1 0 change /wing look at /engine/block ")

    def test_who_is_at_a_place(self) -> None:
        """Its heading names who changes it, who looks and who waits; that nobody has it is never said beside that."""
        self.assertIn("It is free.", self.text(PART))
        self.anna.checkout(["r:" + PART])
        until(lambda: "piston Kolben <b>80</b>.SLDPRT an anna looks at it." in self.text(PART), 5)
        self.ben.checkout(["w:" + PART])
        until(lambda: "an anna looks at it. be ben waits." in self.text(PART), 5)
        self.anna.abandon("c2")
        until(lambda: "be ben has it for change." in self.text(PART), 5)
        self.anna.checkout(["r:/engine"])
        until(lambda: "be ben has it, or something beneath it, for change. an anna waits here." in self.text("/engine"), 5)

    def test_a_claim(self) -> None:
        """A claim's own page has what it has, what it waits for, and all that wait for it; it says so when it is gone."""
        for _ in range(3):
            self.anna.checkout(["w:" + PART])
        self.ben.checkout(["r:/engine"])
        self.assertRegex(self.text("/.claim/c2"), r"anna holds it since .* What it waits for Nothing. What waits for it .*c3 .*c4 .*c5 ")
        self.assertRegex(self.text("/.claim/c5"), r"ben waits with it since .* What it waits for an anna c2 held .* What waits for it Nobody.")
        self.anna.abandon("c2")
        until(lambda: "It is gone" in self.text("/.claim/c2"), 5)
        self.assertEqual([self.page.get("/.claim/" + name)[0] for name in ("c0", "x1", "", "c12345678901")], [404] * 4)

    def test_tables(self) -> None:
        """What a page shows is there for other programs, too, and no cell is a formula."""
        self.anna.checkout(["w:" + PART])
        self.anna.set_note("c2", b"=HYPERLINK(1)")
        self.ben.checkout(["r:/engine"])
        self.page.page("/")
        status, headers, body = self.page.get("/?as=csv")
        self.assertEqual((status, headers["content-type"]), (200, "text/csv; charset=utf-8"))
        rows = list(csv.DictReader(io.StringIO(body)))
        cells = ("claim", "designer", "standing", "items", "note", "waits_for", "stops")
        self.assertEqual([tuple(row[cell] for cell in cells) for row in rows],
                         [("c2", "anna", "held", "w:" + PART, "'=HYPERLINK(1)", "", "1"), ("c3", "ben", "queued", "r:/engine", "", "c2", "0")])
        self.assertEqual([row["note"] for row in json.loads(self.page.page("/engine?as=json"))], ["=HYPERLINK(1)", None])
        self.assertEqual([row["claim"] for row in json.loads(self.page.page("/designers/ben?as=json"))], ["c3"])
        self.assertEqual([(row["designer"], row["stops"]) for row in json.loads(self.page.page("/designers?as=json"))], [("anna", 1), ("ben", 0)])
        version = json.loads(self.page.page(PART + "?as=json"))[0]
        self.assertEqual((version["version"], version["name"], version["by"], version["size"]), (1, CARD.name, "anna", CARD.size))
        self.assertEqual([self.page.get(path)[0] for path in ("/?as=xml", "/?as=", "/.claim/c?as=csv", "/nowhere?as=csv")], [404] * 4)
        self.assertEqual([(row["stands"], row["claim"]) for row in json.loads(self.page.page("/.claim/c2?as=json"))],
                         [("itself", "c2"), ("waits for it", "c3")])
        self.assertEqual([(row["stands"], row["claim"]) for row in csv.DictReader(io.StringIO(self.page.page("/.claim/c3?as=csv")))],
                         [("in its way", "c2"), ("itself", "c3")])
        found = json.loads(self.page.page("/.search?q=anna&as=json"))
        self.assertEqual([(row["kind"], row["name"], row["place"], row["version"]) for row in found],
                         [("claim", "c2", PART, None), ("designer", "anna", None, None), ("part", "piston", PART, 1)])
        self.assertEqual(self.page.page("/.search?q=&as=csv"), "kind,name,place,version,title,by,why\r\n")
        for path in ("/", "/engine", PART, "/designers", "/designers/anna", "/.claim/c2", "/.search?q=anna", "/.blockers", "/.old?days=3"):
            links = re.findall(r'href="([^"]*as=(?:csv|json))"', self.page.page(path))
            self.assertEqual((path, [self.page.get(html.unescape(link))[0] for link in links]), (path, [200, 200]))

    def test_who_keeps_others_waiting(self) -> None:
        """By time: who does so for longest comes first, with since when, and with who waits."""
        self.anna.make("/wing")
        self.anna.checkout(["w:/wing"])
        self.ben.checkout(["w:" + PART])
        self.anna.checkout(["r:" + PART])
        stream = self.stream("/.blockers")
        time.sleep(1.1)
        self.ben.checkout(["w:/wing"])
        stream.change("c5", "2 claims keep")
        rows = json.loads(self.page.page("/.blockers?as=json"))
        self.assertEqual([(row["claim"], row["designer"], row["stops"], row["waiting"]) for row in rows],
                         [("c3", "ben", 1, "c4=anna"), ("c2", "anna", 1, "c5=ben")])
        self.assertLess(rows[0]["since"], rows[1]["since"])
        self.assertRegex(self.text("/.blockers"), r"2 claims keep 2 waiting.* ben c3 in a ring 1 change .* anna c4 .* anna c2 .*1 change /wing"
                                                  r" .* ben c5")

    def test_how_full(self) -> None:
        """The page shows what it can ask for; of what it can't, it says who can."""
        self.page.page("/")
        until(lambda: "has read 1 version," in self.text("/"), 5)
        text = self.text("/")
        for part in ("places, with the library 4 of 4,096", "projects 1 of 64", "claims 0 of 256", "versions of the part with most 1 of 65,535",
                     f"{len(CARD.spell())} bytes in the vault", "vaultd check A B says how full the contents are"):
            self.assertIn(part, text)

    def test_a_search(self) -> None:
        """Places by path and by their files' names, designers and claims are found."""
        self.anna.checkout(["w:" + PART])
        self.page.page("/")
        until(lambda: "1 thing found" in self.text("/.search?q=Kolben+80"), 5)
        for asked, found in (("PISTON", "2 things"), ("anna", "3 things"), ("c2", "1 thing"), ("block+engine", "3 things"),
                             ("nothing-there", "0 things")):
            self.assertIn(found + " found", self.text("/.search?q=" + asked), asked)
        body = self.page.page("/.search?q=%3Cscript%3Ealert(1)%3C/script%3E%E2%80%AE%00")
        self.assertIn("&lt;script&gt;alert(1)&lt;/script&gt;\\u202e\\x00".replace("\\x00", "\\u0000"), body)
        self.assertNotIn("<script>alert", body)

    def test_a_search_of_old_versions(self) -> None:
        """An earlier version is found once it was read, too; each result says where it has the words, and the page how far it has looked."""
        for number in range(30):
            self.check_in(Card("ab" * 32, 5, f"Bolt {number}.step", "anna", "2026-11-20T08:15:00Z", f"reason x{number}y").spell())
        self.page.page("/")
        until(lambda: "in all versions" in self.text("/.search?q=reason"), 20)
        text = self.text("/.search?q=Reason+X3Y")
        self.assertRegex(text, r"1 thing found .* in version 5 why reason x3y")
        self.assertIn("<mark>reason</mark>", self.page.page("/.search?q=reason"))
        self.assertIn("Kolben", self.text("/.search?q=kolben"))

    def test_a_search_with_much_found(self) -> None:
        """A hundred places stand on a page, and links lead to the others."""
        with self.server.connect() as client:
            told(client, b"hello anna\n" + b"".join(b"make /wing_%d\n" % n + b"".join(b"make /wing_%d/a%d\n" % (n, m) for m in range(60))
                                                    for n in range(4)), 1 + 4 * 61)
        self.page.page("/")
        until(lambda: "244 things" in self.text("/.search?q=wing"), 20)
        first, second, third = (self.page.page("/.search?q=wing" + rest) for rest in ("", "&from=100", "&from=200"))
        self.assertEqual([len(re.findall(r'class="path" href="/wing', page)) for page in (first, second, third)], [100, 100, 44])
        self.assertIn('href="/.search?q=wing&amp;from=100"', first)
        self.assertIn('href="/.search?q=wing"', second)
        self.assertNotIn("More places", third)

    def test_real_names(self) -> None:
        """A project's and an assembly's real name stands beside its place, and what keeps it is no part; with anything else in it, it is one."""
        self.assertIn("1 project, 1 assembly, 1 part.", self.text("/"))
        stream = self.stream("/")
        for place, name in (("/engine", "Motor Nr. 1"), ("/engine/block", "Zylinder (Guss)")):
            kept = name_place(place)
            if kept.count("/") == 3 and not self.anna.is_there(kept.rpartition("/")[0]):
                self.anna.make(kept.rpartition("/")[0])
            self.anna.make(kept)
            self.check_in(spell_name(name), kept)
        stream.change("is called", "Zylinder (Guss)", seconds=25)
        until(lambda: "engine Motor Nr. 1" in self.text("/"), 25)
        text = self.text("/")
        for words in ("1 project, 1 assembly, 1 part.", "engine Motor Nr. 1", "block Zylinder (Guss)", "/engine is called Motor Nr. 1"):
            self.assertIn(words, text)
        for page in (self.page.page("/"), self.page.page("/engine"), self.page.page("/.search?q=name"), self.page.get("/.branch?at=/engine")[2]):
            self.assertNotIn("-name-", page)
        self.assertIn("block Zylinder (Guss)", self.text("/engine/block"))
        found = self.text("/.search?q=zylinder+guss")
        self.assertIn("1 thing found", found)
        self.assertIn("/engine/block name Zylinder (Guss)", found)
        self.check_in(b"no name", "/engine/block/-name-")
        until(lambda: "1 project, 1 assembly, 2 parts." in self.text("/"), 5)
        self.assertNotIn("Zylinder", re.sub("Lately.*How full", "", self.text("/")))
        self.assertIn("1 thing found", self.text("/.search?q=-name-"))

    def test_names_that_the_page_has_itself(self) -> None:
        """Places may have any name: each has an address of its own, and no page takes another's."""
        for place in ("/designers", "/designers/anna", "/designers/anna/static", "/static", "/static/page", "/events", "/search", "/board"):
            self.anna.make(place)
        for place, at in (("/static", "/static"), ("/static/page", "/static/page"), ("/events", "/events"), ("/search", "/search"),
                          ("/designers", "/~/designers"), ("/designers/anna", "/~/designers/anna"),
                          ("/designers/anna/static", "/~/designers/anna/static")):
            self.assertEqual(address(place), at)
            body = self.page.page(at)
            self.assertIn(f'data-watch="{at}"', body)
            self.assertIn(f"<title>{place} ·", body)
        whole = self.page.page("/")
        self.assertIn('<a class="leaf" href="/~/designers/anna/static">static</a>', whole)
        self.assertIn("All that is theirs", self.page.page("/designers/anna"))
        self.assertIn('href="/~/designers/anna"', self.page.page("/designers/anna"))
        self.assertEqual([self.page.get(path)[0] for path in ("/~/static", "/~/engine", "/designers/anna/static", "/~", "/~/")], [404] * 5)

    def test_nothing_is_changed(self) -> None:
        """After every kind of request the files are the same bytes, and the server got only questions, in the page's own name."""
        self.anna.checkout(["w:" + PART])
        self.anna.checkout(["r:/"])
        before = self.files()
        stream = self.stream("/")
        for path in KINDS:
            for method in ("GET", "HEAD", "POST", "PUT", "DELETE", "PATCH", "OPTIONS", "TRACE", "PROPFIND"):
                self.page.get(path, method)
        for path in ("/engine/block/new", "/make/e", "/designers/anna/c2", f"{PART}?before=1%0Aabandon+c2", "/.search?q=%0Aabandon%20c2%0A"):
            self.page.get(path)
        self.page.raw(b"hello anna\nabandon c2\nquit\n")
        stream.next(lambda kind, data: kind == "beat", 30)
        until(lambda: len(self.asked()) > 40, 20)
        self.assertEqual(self.files(), before)
        asked = self.asked()
        self.assertEqual({line.partition(b" ")[0].decode() for line in asked} - QUESTIONS, set())
        self.assertEqual({line for line in asked if line.startswith(b"hello") or line.startswith(b"note") and line.count(b" ") != 1}, {b"hello page"})


class Strangers(WithPage):
    """What comes to the page's port and isn't a page of its own."""

    words = ("--host", "vault.example.org", "--host", "127.0.0.1", "--streams", "6")

    def status(self, request: str) -> int:
        """The status of a request by hand."""
        told_here = self.page.raw(request.encode("latin-1"))
        return int(told_here.split(b" ")[1]) if told_here else 0

    def test_hosts(self) -> None:
        """Only the names that were given are served, whatever the port after them; all others get 421."""
        for host in ("vault.example.org", "VAULT.example.ORG", "vault.example.org:443", "127.0.0.1:1"):
            self.assertEqual((host, self.page.get("/", Host=host)[0]), (host, 200))
        for host in ("evil.example", "localhost", "vault.example.org.evil.example", "vault.example.org.", "", "[::1]", "127.0.0.1@evil.example",
                     "127.0.0.1:80:80", "127.0.0.1 evil", "xvault.example.org", "127.0.0.1:x"):
            self.assertEqual((host, self.page.get("/", Host=host)[0]), (host, 421))
            self.assertEqual((host, self.page.get("/.events?see=/", Host=host)[0]), (host, 421))
        self.assertEqual(self.status("GET / HTTP/1.0\r\n\r\n"), 421)
        self.assertIn(self.status("GET / HTTP/1.1\r\nHost: 127.0.0.1\r\nHost: evil.example\r\n\r\n"), (400, 421))
        self.assertIn(self.status("GET http://evil.example/ HTTP/1.1\r\nHost: 127.0.0.1\r\n\r\n"), (400, 421))

    def test_foreign_pages(self) -> None:
        """A foreign page can't open a stream, nor read or frame a page; a link from one leads here."""
        for headers in ({"Origin": "https://evil.example"}, {"Origin": "null"}, {"Sec_Fetch_Site": "cross-site", "Sec_Fetch_Mode": "cors"},
                        {"Sec_Fetch_Site": "cross-site", "Sec_Fetch_Mode": "navigate", "Sec_Fetch_Dest": "iframe"},
                        {"Sec_Fetch_Site": "same-site", "Sec_Fetch_Mode": "no-cors", "Sec_Fetch_Dest": "image"}):
            for path in ("/", "/.events?see=/", "/.static/page.js"):
                status, told_headers, _ = self.page.get(path, **headers)
                self.assertEqual((path, status), (path, 403), headers)
                self.assertNotIn("access-control-allow-origin", told_headers)
        self.assertEqual(len(self.tap.heard), 0)
        link = {"Sec_Fetch_Site": "cross-site", "Sec_Fetch_Mode": "navigate", "Sec_Fetch_Dest": "document"}
        self.assertEqual(self.page.get("/", **link)[0], 200)
        self.assertEqual(self.page.get("/", Origin=self.page.address)[0], 200)

    def test_methods(self) -> None:
        for method in ("POST", "PUT", "DELETE", "OPTIONS", "TRACE", "CONNECT", "make"):
            status, headers, _ = self.page.get("/", method)
            self.assertIn((method, status), ((method, 405), (method, 400)))
            if status == 405:
                self.assertEqual(headers["allow"], "GET, HEAD")
        for method in ("POST", "OPTIONS"):
            self.assertEqual(self.page.get("/", method)[0], 405)
        status, headers, body = self.page.get("/", "HEAD")
        self.assertEqual((status, int(headers["content-length"]) > 1000, body), (200, True, ""))
        self.assertEqual(self.page.get("/.events?see=/", "HEAD")[0], 405)

    def test_shorter_on_the_way(self) -> None:
        """A page is compressed for who takes that, but not one that repeats what its address says."""
        for path in ("/", "/.static/page.css"):
            raw = self.page.raw(f"GET {path} HTTP/1.1\r\nHost: 127.0.0.1\r\nAccept-Encoding: br, gzip\r\n\r\n".encode())
            head, _, body = raw.partition(b"\r\n\r\n")
            self.assertIn(b"Content-Encoding: gzip", head)
            self.assertGreater(len(gzip.decompress(body)), 2 * len(body))
        self.assertNotIn("content-encoding", self.page.get("/.search?q=x", Accept_Encoding="gzip")[1])
        self.assertNotIn("content-encoding", self.page.get("/")[1])

    def test_a_slash_at_the_end(self) -> None:
        """It leads to the place, and nowhere else."""
        status, headers, _ = self.page.get("/engine/block/")
        self.assertEqual((status, headers["location"]), (302, "/engine/block"))
        self.assertEqual([self.page.get(path)[0] for path in ("//", "//evil.example/", "/engine//", "/Engine/")], [404] * 4)

    def test_paths(self) -> None:
        """A place has one spelling; nothing leads out, and nothing that is asked for stands in the answer as markup."""
        for path in ("/%2e%2e/%2e%2e/etc/passwd", "/../../etc/passwd", "/.static/../page.py", "/.static/%2e%2e/board.py", "/.static/layout.html",
                     "//", "//evil.example/", "/engine//block", "/ENGINE", "/engine%2fblock", "/%65ngine", "/a/b/c/d/e/f/g/h",
                     "/" + "a" * 33, "/<script>alert(1)</script>", "/.events/x", "/.x", "/engine;x", "/engine%00", "/designers/Anna",
                     "/designers/" + "a" * 33):
            status, _, body = self.page.get(path)
            self.assertIn((path, status), ((path, 404), (path, 400)))
            self.assertNotIn("<script>alert", body)
            self.assertNotIn("root:", body)

    def test_large_requests(self) -> None:
        """Long lines, many fields, many headers and bytes that are no request are refused, and the page goes on."""
        for request in ("GET /.search?q=" + "a" * 100000 + " HTTP/1.1\r\nHost: 127.0.0.1\r\n\r\n",
                        "GET /.search?" + "&".join(f"a{n}=1" for n in range(900)) + " HTTP/1.1\r\nHost: 127.0.0.1\r\n\r\n",
                        "GET / HTTP/1.1\r\nHost: 127.0.0.1\r\n" + "".join(f"X-{n}: {'a' * 100}\r\n" for n in range(5000)) + "\r\n",
                        "GET / HTTP/1.1\r\nHost: 127.0.0.1\r\nX: " + "a" * 100000 + "\r\n\r\n",
                        "GET / HTTP/1.1\r\nHost: 127.0.0.1\r\nTransfer-Encoding: chunked\r\n\r\nffffffff\r\n",
                        "GET / HTTP/1.1\r\nHost: 127.0.0.1\r\nConnection: Upgrade\r\nUpgrade: websocket\r\n\r\n",
                        "hello anna\nmake /evil\nquit\n", "\x16\x03\x01\x02\x00\x01\x00\x01\xfc\x03\x03" + "\xff" * 500):
            self.assertIn((request[:60], self.status(request)), ((request[:60], 400), (request[:60], 0), (request[:60], 421)))
        self.assertEqual(self.page.get("/.search?q=" + "a" * 5000)[0], 200)
        self.assertIn("piston", self.page.page(PART))

    def test_pipelined_requests(self) -> None:
        """A few requests may follow each other without waiting; more end the connection."""
        request = b"GET /designers HTTP/1.1\r\nHost: 127.0.0.1\r\n\r\n"
        with socket.create_connection(("127.0.0.1", self.page.port), timeout=20) as client:
            client.sendall(b"GET /.events?see=/ HTTP/1.1\r\nHost: 127.0.0.1\r\n\r\n" + request * 2000)
            with contextlib.suppress(ConnectionError):
                while client.recv(65536):
                    pass
        self.assertIn("piston", self.page.page(PART))

    def is_ended(self, behind: Iterable[bytes]) -> bool:
        """Whether the page ends a connection on which this comes behind a stream's request. A stream that goes on has a beat all ten seconds."""
        with socket.create_connection(("127.0.0.1", self.page.port), timeout=8) as client:
            client.sendall(STREAM)
            self.assertTrue(client.recv(65536).startswith(b"HTTP/1.1 200"))
            try:
                for piece in behind:
                    client.sendall(piece)
                while client.recv(65536):
                    pass
            except ConnectionError:
                return True
            except socket.timeout:
                return False
        return True

    def test_much_behind_a_stream(self) -> None:
        """What waits behind a stream takes next to no memory: bytes behind a wish for another protocol, large requests, or one without end."""
        field = b"X: " + b"a" * 8000 + b"\r\n"
        head = b"GET / HTTP/1.1\r\nHost: 127.0.0.1\r\n"
        before = self.page.memory()
        for name, behind in (("upgrade", [UPGRADE, *[bytes(1 << 20)] * 32]), ("requests", [head + field * 120 + b"\r\n"] * 16),
                             ("a request", [head, *[field] * 120])):
            with self.subTest(name):
                self.assertTrue(self.is_ended(behind))
                self.assertLess(self.page.memory() - before, 12 << 20)
        self.assertIn("piston", self.page.page(PART))

    def test_many_requests_on_a_connection(self) -> None:
        """A browser keeps its connection: all its requests are answered, however large they are together, and a few at once."""
        request = b"GET /designers HTTP/1.1\r\nHost: 127.0.0.1\r\nCookie: " + b"a" * 7000 + b"\r\n\r\n"
        with socket.create_connection(("127.0.0.1", self.page.port), timeout=20) as client:
            for count in (*[1] * 30, 5):
                client.sendall(request * count)
                answers = b""
                while answers.count(b"</html>") < count:
                    piece = client.recv(65536)
                    self.assertNotEqual(piece, b"")
                    answers += piece
                self.assertEqual(answers.count(b"HTTP/1.1 200 OK"), count)

    def test_what_is_no_request_leaves_no_trace(self) -> None:
        """Bytes that are no request get 400 or 405, and nothing of them stands in the page's log."""
        chunks = b"GET / HTTP/1.1\r\nHost: 127.0.0.1\r\nTransfer-Encoding: chunked\r\n\r\n"
        for head in (b"", UPGRADE, b"CONNECT 127.0.0.1:80 HTTP/1.1\r\nHost: 127.0.0.1\r\n\r\n", chunks, chunks + b"5\r\nhello\r\n"):
            for garbage in (b"\0" * 300 + b"\r\n\r\n", b"GET\r\n\r\n", b"zzz\r\n\r\n" + b"\xff" * 300):
                with self.subTest(head=head[:40], garbage=garbage[:10]):
                    self.assertRegex(self.page.raw(head + garbage), rb"^HTTP/1\.[01] 40[05] ")
        self.assertEqual(self.page.end(), b"")

    def test_many_streams(self) -> None:
        """A limited number of open pages get changes; a further one gets 503, and pages are handed out all the same."""
        streams = [self.stream("/") for _ in range(6)]
        for stream in streams:
            stream.next(lambda kind, data: kind == "beat", 10)
        for _ in range(20):
            status, headers, _ = self.page.get("/.events?see=/")
            self.assertEqual((status, headers["retry-after"]), (503, "15"))
        self.assertIn("piston", self.page.page(PART))
        streams[0].close()
        until(lambda: self.opens(), 15)

    def opens(self) -> bool:
        """Whether one more stream can be had."""
        with socket.create_connection(("127.0.0.1", self.page.port), timeout=5) as client:
            client.sendall(b"GET /.events?see=/ HTTP/1.1\r\nHost: 127.0.0.1\r\n\r\n")
            return client.recv(65536).startswith(b"HTTP/1.1 200")

    def test_requests_with_a_body(self) -> None:
        """The page takes nothing, so what comes behind a request is refused, and isn't unpacked."""
        packed = gzip.compress(bytes(32 << 20))
        for path in ("/", "/.events?see=/", "/.static/page.css"):
            head = f"GET {path} HTTP/1.1\r\nHost: 127.0.0.1\r\n"
            self.assertEqual(self.status(head + "Content-Length: 5\r\n\r\nhello"), 400)
            self.assertEqual(self.status(head + f"Content-Encoding: gzip\r\nContent-Length: {len(packed)}\r\n\r\n" + packed.decode("latin-1")), 400)
        self.assertEqual(self.page.get("/", Content_Length="0")[0], 200)
        before = self.page.memory()
        with contextlib.ExitStack() as kept:
            for _ in range(6):
                client = kept.enter_context(socket.create_connection(("127.0.0.1", self.page.port), timeout=20))
                client.sendall(b"GET /.events?see=/ HTTP/1.1\r\nHost: 127.0.0.1\r\n\r\nGET / HTTP/1.1\r\nHost: 127.0.0.1\r\n"
                               b"Content-Encoding: gzip\r\nContent-Length: %d\r\n\r\n" % len(packed) + packed)
                self.assertIn(b"200 OK", client.recv(65536))
            self.assertLess(self.page.memory() - before, 32 << 20)

    def test_revisions_that_are_none(self) -> None:
        """Whatever a stream says that its page was, it is one stream, which ends with its connection."""
        run = re.findall(r'data-run="([^"]*)"', self.page.page("/"))[0]
        for revision in ("%C2%B2", "%D9%A1", "-1", "1e3", "%00", "9" * 5000):
            with self.subTest(revision):
                stream = Stream(self.page.port, "/designers/x1", revision, run)
                stream.next(lambda kind, data: kind == "again", 5)
                stream.close()
        for _ in range(12):
            self.assertIn(self.page.get("/.events?see=/designers/x1%3F" + "%26".join(f"a{number}=1" for number in range(17)))[0], (400, 503))
        until(lambda: self.opens(), 15)
        self.assertEqual(self.page.end(), b"")

    def test_browsers_that_leave(self) -> None:
        """A browser that is gone before its answer is nothing to report."""
        for path in ("/", "/engine", "/.static/page.css", "/.events?see=/", "/.search?q=piston"):
            for _ in range(5):
                with socket.create_connection(("127.0.0.1", self.page.port), timeout=20) as client:
                    client.setsockopt(socket.SOL_SOCKET, socket.SO_LINGER, struct.pack("ii", 1, 0))
                    client.sendall(f"GET {path} HTTP/1.1\r\nHost: 127.0.0.1\r\n\r\n".encode())
        self.assertIn("piston", self.page.page(PART))
        until(lambda: self.opens(), 15)
        self.assertEqual(self.page.end(), b"")

    def test_streams_of_nothing(self) -> None:
        for see in ("", "x", "/../x", "/.events", "/.branch", "//", "/" + "a" * 40, "/engine%0d%0aX:1", "/%3Cscript%3E"):
            self.assertEqual((see, self.page.get("/.events?see=" + see)[0]), (see, 404))

    def test_a_thousand_connections(self) -> None:
        """Beside a thousand connections that say nothing others are served."""
        with contextlib.ExitStack() as kept:
            silent = [kept.enter_context(socket.create_connection(("127.0.0.1", self.page.port), timeout=30)) for _ in range(1000)]
            self.assertIn("piston", self.page.page(PART))
            ended = select.poll()
            for connection in silent:
                ended.register(connection, select.POLLIN)
            self.assertEqual(ended.poll(0), [])


class Upgrade(WithPage):
    """A page under which the files of a later version are laid."""

    def test_of_templates(self) -> None:
        """It answers by its own templates until it is started again."""
        packages = self.folder / "python"
        shutil.copytree(TOP / "python", packages, ignore=shutil.ignore_patterns("__pycache__"))
        page = PageServer(self.server.port, packages=packages)
        self.addCleanup(page.end)
        templates = list((packages / "vaultd_tools/src/vaultd_tools/page/templates").glob("*.html"))
        self.assertGreater(len(templates), 5)
        for template in templates:
            template.write_text("{{ what_only_a_later_version_has }}", "utf-8")
        self.assertEqual([(path, page.get(path)[0]) for path in (*KINDS, "/nowhere")], [*((path, 200) for path in KINDS), ("/nowhere", 404)])
        self.assertEqual(page.end(), b"")


class InThisProcess(unittest.IsolatedAsyncioTestCase):
    """A page that runs in this process, with short time limits."""

    async def asyncSetUp(self) -> None:
        asyncio.get_running_loop().slow_callback_duration = 10
        self.server = Server("--workers", "16", folder=MEMORY)
        self.addCleanup(self.server.close)
        self.server.start()
        for module, word, value in ((web, "TAKE_SECONDS", 0.5), (doors, "TAKE_SECONDS", 0.5), (streams, "BEAT_SECONDS", 0.2)):
            patch = mock.patch.object(module, word, value)
            patch.start()
            self.addCleanup(patch.stop)
        fill(self.server.port, 1500, 0)
        self.clients: List[socket.socket] = []
        self.page = web.Page("127.0.0.1", self.server.port, "page", ["127.0.0.1"], "x")
        self.doors = doors.Doors(self.page.answer, access_log=None)
        self.listener = await asyncio.get_running_loop().create_server(self.doors, "127.0.0.1", 0)
        self.watch = asyncio.ensure_future(self.page.watcher.run())

    async def asyncTearDown(self) -> None:
        for client in self.clients:
            client.close()
        await self.none_left()
        self.watch.cancel()
        self.listener.close()
        await self.doors.shutdown(0.1)
        await self.page.watcher.close()

    def connected(self, path: str, room: int = 1 << 16) -> socket.socket:
        """A client that asks for a page, and takes only as much of it as there is room for."""
        client = socket.socket()
        client.setsockopt(socket.SOL_SOCKET, socket.SO_RCVBUF, room)
        client.connect(self.listener.sockets[0].getsockname())
        client.sendall(f"GET {path} HTTP/1.1\r\nHost: 127.0.0.1\r\n\r\n".encode())
        self.clients.append(client)
        return client

    async def streams(self, count: int) -> None:
        """Waits until this many streams are open."""
        for _ in range(500):
            if self.page.watcher.streams == count and sum(len(channel.streams) for channel in self.page.channels.values()) == count:
                return
            await asyncio.sleep(0.02)
        self.fail(f"{self.page.watcher.streams} streams are open")

    async def none_left(self) -> None:
        """Waits until no connection is left."""
        for _ in range(500):
            if not self.doors.connections:
                return
            await asyncio.sleep(0.02)
        self.fail(f"{len(self.doors.connections)} connections are left")


class Silent(InThisProcess):
    """Connections that say nothing."""

    async def silent(self, count: int) -> List[socket.socket]:
        """So many more of them, once the page has taken them."""
        clients = [socket.create_connection(self.listener.sockets[0].getsockname(), timeout=30) for _ in range(count)]
        self.clients += clients
        for client in clients:
            client.setblocking(False)
        taken = len(self.doors.connections) + count
        while len(self.doors.connections) < min(taken, doors.MAX_CONNECTIONS):
            await asyncio.sleep(0)
        return clients

    async def ended(self, client: socket.socket) -> None:
        """Waits until a connection is ended."""
        self.assertEqual(await asyncio.wait_for(asyncio.get_running_loop().sock_recv(client, 1), 10), b"")

    async def test_after_their_time(self) -> None:
        self.assertLessEqual(doors.FIRST_SECONDS, 20)
        with mock.patch.object(doors, "FIRST_SECONDS", 1.0):
            begun = time.monotonic()
            clients = await self.silent(50)
            for client in clients:
                await self.ended(client)
        self.assertGreater(time.monotonic() - begun, 0.9)
        await self.none_left()

    async def test_more_than_there_is_room_for(self) -> None:
        """One that is too many is ended at once, and those before it stand."""
        with mock.patch.object(doors, "MAX_CONNECTIONS", 50):
            await self.silent(50)
            await self.ended((await self.silent(1))[0])
        self.assertEqual(len(self.doors.connections), 50)


class SlowReaders(InThisProcess):
    """Whoever takes nothing is dropped."""

    async def test_of_pages(self) -> None:
        """A page of some hundred kilobytes doesn't fit between the two: its reader is dropped."""
        with self.server.connect() as client:
            told(client, b"hello filler\n" + b"checkout r:/p00000/block r:/p00066/block r:/p00132/block r:/p00198/block\n" * 250, 251)
        self.page.watcher.look()
        await self.page.watcher.fresh()
        for _ in range(30):
            self.connected("/", 2048)
        await asyncio.sleep(0.3)
        self.assertGreater(len(self.doors.connections), 0)
        await self.none_left()

    async def test_of_streams(self) -> None:
        """A stream whose reader takes nothing is dropped after a few waiting messages."""
        for _ in range(5):
            self.connected("/.events?see=/", 2048)
        await self.streams(5)
        for number in range(2000):
            for channel in self.page.channels.values():
                for stream in list(channel.streams):
                    stream.push(streams.event({"revision": number, "say": ["x" * 10000]}))
            await asyncio.sleep(0.001)
            if not self.page.channels:
                break
        await self.streams(0)
        await self.none_left()

    async def test_of_messages(self) -> None:
        """A limited number of messages wait for a reader. With one more it is dropped."""
        stream = streams.Stream()
        for _ in range(streams.MAX_WAITING):
            stream.push(b"x")
        self.assertFalse(stream.over)
        stream.push(b"x")
        self.assertTrue(stream.over)


class Names(InThisProcess):
    """However many addresses a page has, what is sent to its streams is worked out once."""

    async def test_of_known_places(self) -> None:
        """`before` tells one page of a part from another, and only where the part has so many versions."""
        part = "/p00000/block/part_00"
        with self.server.connect() as client:
            told(client, f"hello anna\ncheckout w:{part}\nsave c1 {part} 00\ncheckin c1\n".encode(), 4)
        for path in ("/", "/p00000", "/p00000/block", part, "/p00000/block/part_01"):
            for before in range(2, 7):
                self.connected(f"/.events?see={path}%3Fbefore={before}")
        await self.streams(25)
        self.assertEqual(len(self.page.channels), 5)
        self.connected(f"/.events?see={part}%3Fbefore=1")
        await self.streams(26)
        self.assertEqual(len(self.page.channels), 6)

    async def test_of_a_place_that_comes_to_be_known(self) -> None:
        """Streams of a place that wasn't known, by many addresses, end once it is known to be no part. The next ones have one channel."""
        for before in range(5):
            self.connected(f"/.events?see=/wing/rib/web%3Fbefore={before}")
        await self.streams(5)
        with self.server.connect() as client:
            told(client, b"hello anna\nmake /wing\nmake /wing/rib\nnest /wing/rib/web\n", 4)
        await self.page.watcher.learn_place("/wing/rib/web")
        await self.streams(1)
        self.assertEqual(list(self.page.channels), [views.PlaceView("/wing/rib/web")])
        for before in range(5):
            self.connected(f"/.events?see=/wing/rib/web%3Fbefore={before}")
        await self.streams(6)
        self.assertEqual(len(self.page.channels), 1)

    async def test_of_a_part_that_is_not_counted_yet(self) -> None:
        """As long as nobody knows how many versions a part has, `before` stays."""
        model, view = Model(), views.PlaceView("/1/2/3/4/5/6/7", 5)
        for versions, settled in ((None, view), (5, view), (4, views.PlaceView(view.path)), (0, views.PlaceView(view.path))):
            place = model.add(view.path)
            place.versions, place.counted = versions or 0, versions is not None
            self.assertEqual((versions, view.settled(model)), (versions, settled))


class Words(unittest.TestCase):
    """How numbers, names and strangers' texts are written."""

    def test_numbers(self) -> None:
        self.assertEqual([in_bytes(size) for size in (0, 1, 999, 1000, 48_000_000, 999_999, 10 ** 17)],
                         ["0 bytes", "1 byte", "999 bytes", "1 kB", "48 MB", "1 MB", "100 PB"])
        self.assertEqual(render.spelled("e\u0301 " + "a\u0301" + "\u0301" * 60 + "\u202e"), "e\u0301 a\u0301\u0301\u0301\u2026\\u202e")
        self.assertEqual(search.as_written("Kolben 80.SLDPRT"), "kolben_80_sldprt")
        self.assertEqual([render.initials(name) for name in ("anna", "anna_mueller", "a-b-c", "x", "__", "_li")], ["an", "am", "ab", "x", "__", "li"])
        self.assertEqual(watch.LINGER_SECONDS, 5.0)


if __name__ == "__main__":
    unittest.main()
