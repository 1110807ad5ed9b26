"""The commands that write a file: what they make, what they tell, what they leave alone."""
import json
import os
import resource
import signal
import struct
import subprocess
import xml.etree.ElementTree as ElementTree

from trial import COUNTS, DEMO, FIRST, SAMPLES, TOOL, TURNED, Trial, hurt, lines, run, sample


def archive_of(*sections):
    return b"".join(struct.pack("<I", len(s)) + b"".join(s) for s in sections)


class Repair(Trial):
    def mended(self, path, pages, left=()):
        """Repairs; every page but those left is then Good or blank, and says what it said."""
        out = self.dir / "mended.vol"
        status, told, err = run("repair", path, "-o", out, "--force")
        self.assertEqual((status, err), (1 if left else 0, ""))
        words = {int(line.split()[0]): line.split()[1] for line in lines("scan", out) if line[0].isdigit()}
        self.assertEqual({page for page, word in words.items() if word not in ("GOOD", "BLANK")}, set(left))
        for page in range(1, pages + 1):
            self.assertEqual(run("show", out, page, "--raw")[:2], run("show", path, page, "--raw")[:2])
        return told.decode()

    def test_every_page_is_good(self):
        told = self.mended(DEMO, 6).splitlines()
        self.assertEqual(told, [f"page {p} was {w}, is GOOD" for p, w in ((2, "BEHIND"), (3, "STALE"), (4, "FAILED"), (5, "FAILED"))])
        self.mended(FIRST, 6)
        self.assertEqual(self.mended(TURNED, 2), "page 2 was FAILED, is GOOD\n")
        mended = self.file((self.dir / "mended.vol").read_bytes())
        self.assertEqual(self.mended(mended, 2), "every page was GOOD: the copy is the same\n")
        self.assertEqual((self.dir / "mended.vol").read_bytes(), mended.read_bytes())

    def test_what_it_could_not_mend(self):
        told = self.mended(self.file(sample.visit()), 5, left=[4, 5])
        self.assertIn("page 4 is BEHIND still, refused 14: The notes are full, ", told)
        self.assertIn("page 5 is LOST still, refused 23: The page is lost", told)
        self.assertIn("page 7 was FAILED, is GOOD", self.mended(self.file(sample.full()), 64, left=[33]))

    def test_no_room_for_a_note(self):
        data = sample.volume(sample.FIRST, [b"\0" * 256], [], [sample.record(1, 0, 1, 1)], [], 4, 0)
        status, out, _ = run("repair", self.file(data), "-o", self.dir / "out.vol")
        self.assertEqual(status, 1)
        self.assertRegex(out.decode(), r"^page 1 is FAILED still, refused 14: The notes are full, .*\.\n$")
        self.assertEqual((self.dir / "out.vol").read_bytes(), data)

    def test_json(self):
        out = self.dir / "out.vol"
        found = json.loads(run("repair", self.file(sample.visit()), "-o", out, "--json")[1])
        self.assertEqual(found["pages"][0], {"page": 2, "was": "FAILED", "refused": 0})
        self.assertEqual(found["pages"][-1], {"page": 5, "was": "LOST", "refused": 23})
        status, data, err = run("repair", DEMO, "-o", "-", "--json")
        self.assertEqual((status, len(data), len(json.loads(err)["pages"])), (0, DEMO.stat().st_size, 4))


class Archive(Trial):
    def test_archive(self):
        out = self.dir / "ward.arc"
        self.assertEqual(run("archive", DEMO, "-o", out), (0, b"", ""))
        self.assertEqual(out.read_bytes(), sample.demo_archive())
        self.assertEqual(run("archive", DEMO, "-o", "-")[:2], (0, sample.demo_archive()))
        done = json.loads(run("archive", DEMO, "-o", self.dir / "b.arc", "--json")[1])
        self.assertEqual(done, {"bytes": len(sample.demo_archive())})

    def test_restore_gives_the_same_archive(self):
        for i, data in enumerate((sample.demo_archive(), archive_of([], []), archive_of([sample.record(1, 0, 1, 1)]))):
            arc, vol = self.file(data, f"{i}.arc"), self.dir / f"{i}.vol"
            self.assertEqual(run("restore", arc, "-o", vol)[0], 0)
            self.assertEqual(run("archive", vol, "-o", "-")[:2], (0, data))

    def test_restore_tells_the_pages(self):
        arc, vol = self.file(sample.demo_archive(), "a.arc"), self.dir / "r.vol"
        self.assertEqual(run("restore", arc, "-o", vol)[:2], (0, b"1 6\n2 11\n3 8\n4 9\n5 10\n6 BLANK\n"))
        for page in range(1, 7):
            self.assertEqual(run("show", vol, page)[:2], run("show", DEMO, page)[:2])
        words = ["restore", arc, "-o", vol, "--force", "--json", "--slots", 1, "--log", 11, "--notes", 0]
        self.assertEqual(json.loads(run(*words)[1])["pages"][4:], [{"page": 5, "last": 10}, {"page": 6, "last": 0}])
        self.assertEqual(vol.stat().st_size, 20 + 256 * 7 + 64 * 11)

    def test_restore_not_done(self):
        out, data = self.dir / "out.vol", sample.demo_archive()
        self.refused(22, "restore", self.file(data[:-1]), "-o", out)
        self.refused(22, "restore", self.file(data + bytes(100000)), "-o", out)
        self.refused(22, "restore", DEMO, "-o", out)
        self.refused(12, "restore", self.file(data), "-o", out, "--log", 10)
        self.refused(1, "restore", self.file(data), "-o", out, "--slots", 129)
        one, two = sample.record(1, 0, 1, 1), sample.record(1, 0, 2, 1)
        for sections in (([one], [two]), ([sample.record(2, 0, 1, 1)],), ([one, sample.record(2000, 1, 1, 1)],)):
            self.told("no single volume's history: ", "restore", self.file(archive_of(*sections)), "-o", out)
        self.assertFalse(out.exists())

    def test_a_refused_archive_leaves_last_week_s(self):
        arc = self.file(b"last week", "ward.arc")
        for number, path in ((24, TURNED), (17, self.file(hurt(DEMO, "log", 2))), (1, self.file(b"no volume", "n"))):
            self.refused(number, "archive", path, "-o", arc, "--force")
            self.assertEqual(arc.read_bytes(), b"last week")


class Convert(Trial):
    def test_convert(self):
        out = self.dir / "second.vol"
        status, told, _ = run("convert", FIRST, "-o", out)
        self.assertEqual((status, told.decode().splitlines()[:2]), (0, ["RESTAMPED 4", "FAILING 4"]))
        self.assertIn("scan names them", told.decode())
        self.assertEqual(out.read_bytes(), DEMO.read_bytes())
        found = json.loads(run("convert", FIRST, "-o", out, "--force", "--json")[1])
        self.assertEqual(found, {"restamped": 4, "failing": 4})

    def test_one_that_was_cut_short_is_carried_on(self):
        begun = self.file(b"CHPC" + FIRST.read_bytes()[4:])
        self.assertEqual(json.loads(run("scan", begun, "--json")[1])["heading"], "carry")
        self.assertEqual(run("convert", begun, "-o", "-")[1], DEMO.read_bytes())

    def test_not_done(self):
        self.assertIn("it has today's heading already", self.refused(1, "convert", DEMO, "-o", self.dir / "x.vol"))
        self.assertEqual(list(self.dir.iterdir()), [])


class New(Trial):
    def test_new(self):
        out = self.dir / "n.vol"
        self.assertEqual(run("new", out, *COUNTS), (0, b"", ""))
        self.assertEqual((out.stat().st_size, out.stat().st_mode & 0o777), (20 + 256 * 10 + 64 * 16 + 16 * 8, 0o600))
        self.assertEqual(run("new", "-", *COUNTS)[1], out.read_bytes())
        self.assertEqual(json.loads(run("new", out, *COUNTS, "--force", "--json")[1]), {"bytes": out.stat().st_size})
        self.told("exists already; --force replaces it", "new", out, *COUNTS)

    def test_not_done(self):
        out = self.dir / "n.vol"
        self.refused(1, "new", out, *COUNTS[2:], "--pages", 65)
        self.refused(1, "new", out, *COUNTS[2:], "--pages", 4294967295)
        self.told("needs --pages, --slots, --log and --notes", "new", out, "--pages", 2)
        self.told("many: not a number", "new", out, "--pages", "many")
        self.told("4294967296: not a number", "new", out, "--pages", 4294967296)
        self.assertFalse(out.exists())


class Map(Trial):
    def drawn(self, path):
        out = self.dir / "m.svg"
        self.assertEqual(run("map", path, "-o", out, "--force"), (0, b"", ""))
        text = out.read_text()
        for word in ("<script", "href", "@import", "url(http", "<image", "<foreignObject"):
            self.assertNotIn(word, text)
        return text, ElementTree.fromstring(text)

    def test_stored_pictures(self):
        for path in (DEMO, TURNED):
            self.assertEqual(self.drawn(path)[0], (SAMPLES / path.name).with_suffix(".svg").read_text())

    def test_what_it_says(self):
        text, tree = self.drawn(DEMO)
        space = "{http://www.w3.org/2000/svg}"
        self.assertEqual((tree.get("role"), tree.find(space + "title").text), ("img", "Volume demo.vol"))
        self.assertIn("Page 4 FAILED. ", tree.find(space + "desc").text)
        self.assertIn("page 1 has to be backed up first", tree.find(space + "desc").text)
        said = [t.text for t in tree.iter(space + "text")]
        for words in ("2  BEHIND", "from BACKUP + 0", "06:10 bed 4 moved", "slot 1: PASSES", "page 4 at 9", "Legend"):
            self.assertTrue(any(words in (s or "") for s in said), words)
        titles = [t.text for t in tree.iter(space + "title")]
        for words in ("log slot 12: torn", "log slot 4: record 4, page 4, spare", "log slot 1: record 1, page 1, needed",
                      "note slot 4: note 4, page 4 backed up as of record 9, needed", "note slot 8: empty"):
            self.assertIn(words, titles)

    def test_the_largest(self):
        text, tree = self.drawn(self.file(sample.full()))
        self.assertEqual(text.count("<g>"), 64 + 128 + 1024 + 1024)
        for words in ("33  LOST", "slot 33: FAILS", "slot 65<", "note 1882, "):
            self.assertIn(words, text)
        self.assertLess(int(tree.get("height")), 4000)

    def test_odd_text_and_names(self):
        log = [sample.record(1, 0, 1, 1), sample.record(2, 1, 1, 2, payload=b'<b>&"\x1b\xff \xef\xbf\xbf ' + "ü".encode())]
        path = self.file(sample.volume(sample.SECOND, [b"\0" * 256], [], log, [], 4, 0), '<&">.vol')
        text, _ = self.drawn(path)
        self.assertIn('&lt;b&gt;&amp;&quot;.. . ü', text)
        self.assertEqual(json.loads(run("map", path, "-o", self.dir / "n.svg", "--json")[1]), {"bytes": len(text.encode())})


class Upkeep(Trial):
    def test_upkeep(self):
        path = self.file(TURNED.read_bytes())
        status, told, err = run("upkeep", path)
        self.assertIn(status, (0, 1), err)
        self.assertEqual(set(json.loads(run("upkeep", path, "--json")[1])), {"advice", "calls"})
        self.assertEqual(path.read_bytes(), TURNED.read_bytes())
        status, told, err = run("upkeep", path, "--do")
        self.assertEqual((status, err), (0, ""))
        self.assertRegex(told.decode(), r"^nothing more to do; \d+ calls were made\n$")
        self.assertEqual(run("upkeep", path)[:2], (0, b"nothing to do\n"))
        for page in (1, 2):
            self.assertEqual(run("show", path, page), run("show", TURNED, page))
        self.assertEqual(run("upkeep", "--do", self.dir / "missing")[0], 3)
        self.refused(1, "upkeep", "--do", self.file(b"no volume", "n"))


class Safe(Trial):
    def test_an_existing_out_is_refused(self):
        arc = self.file(b"last week", "ward.arc")
        self.told("exists already; --force replaces it", "archive", DEMO, "-o", arc)
        self.assertEqual(arc.read_bytes(), b"last week")
        self.assertEqual(run("archive", "--force", DEMO, "-o", arc)[0], 0)
        self.assertEqual((arc.read_bytes(), os.listdir(self.dir)), (sample.demo_archive(), ["ward.arc"]))

    def test_only_a_plain_file_is_replaced(self):
        link = self.dir / "link"
        link.symlink_to(DEMO)
        self.told("no plain file", "archive", DEMO, "-o", link, "--force")
        self.told("no plain file", "archive", DEMO, "-o", "/dev/null", "--force")
        self.told("a directory", "archive", DEMO, "-o", self.dir, "--force")
        self.assertTrue(link.is_symlink() and not os.path.isfile("/dev/null"))

    def test_the_source_may_be_the_place(self):
        path = self.file(DEMO.read_bytes())
        self.assertEqual(run("repair", path, "-o", path, "--force")[0], 0)
        self.assertEqual(lines("scan", path)[7], "disk: nothing to mend")

    def test_who_may_read_the_source_may_read_the_copy(self):
        path = self.file(DEMO.read_bytes())
        path.chmod(0o640)
        run("repair", path, "-o", self.dir / "out.vol")
        self.assertEqual((self.dir / "out.vol").stat().st_mode & 0o777, 0o640)

    def limited(self, ignored):
        """Last week's archive, where this week's may not grow beyond 100 bytes: the status, and what is there then."""
        arc = self.file(b"last week", "ward.arc")

        def limit():
            resource.setrlimit(resource.RLIMIT_CORE, (0, 0))
            resource.setrlimit(resource.RLIMIT_FSIZE, (100, 100))
            signal.signal(signal.SIGXFSZ, signal.SIG_IGN if ignored else signal.SIG_DFL)

        words = [TOOL, "archive", "--force", str(DEMO), "-o", str(arc)]
        done = subprocess.run(words, capture_output=True, preexec_fn=limit, check=False)
        self.assertEqual(arc.read_bytes(), b"last week")
        return done.returncode, done.stderr.decode(), [p.stat().st_size for p in self.dir.iterdir() if p.name != "ward.arc"]

    def test_a_full_disk_leaves_the_old_out(self):
        status, err, beside = self.limited(True)
        self.assertEqual((status, beside), (3, []))
        self.assertIn("ward.arc: File too large", err)

    def test_a_kill_in_the_middle_leaves_the_old_out(self):
        status, _, beside = self.limited(False)
        self.assertEqual((status, beside), (-signal.SIGXFSZ, [100]))
        self.assertEqual(run("archive", "--force", DEMO, "-o", self.dir / "ward.arc")[0], 0)

    def test_a_place_that_is_none(self):
        for place, words in ((self.dir / "no/ward.arc", "No such file"), (DEMO / "x", "Not a directory")):
            status, _, err = run("archive", DEMO, "-o", place)
            self.assertEqual(status, 3)
            self.assertIn(words, err)
        long = self.dir / ("x" * 255)
        self.assertEqual(run("archive", DEMO, "-o", long)[0], 0)
        self.assertEqual(run("archive", DEMO, "-o", self.dir / ("x" * 256))[0], 3)


CASES = (Repair, Archive, Convert, New, Map, Upkeep, Safe)
