"""The commands that only read: their lines, their statuses, their JSON names."""
import json

from trial import COUNTS, DEMO, FIRST, SAMPLES, TURNED, Trial, hurt, lines, run, sample


class Scan(Trial):
    def test_the_lines_of_document_01(self):
        for path, status in ((DEMO, 1), (FIRST, 1), (TURNED, 1)):
            expected = (SAMPLES / path.name.replace("-first", "")).with_suffix(".txt").read_text().splitlines()
            got, out, err = run("scan", path)
            self.assertEqual((got, out.decode().splitlines()[: len(expected)], err), (status, expected, ""))

    def test_what_stands_under_them(self):
        self.assertEqual(
            lines("scan", DEMO)[6:10],
            [
                "text: safe on every page",
                "disk: 4 pages are not GOOD there, and rebuilt at each reading; repair mends that",
                "log: room for 5 more; then page 1 has to be backed up first",
                "notes: room for 4 more; then page 1 has to be written or backed up again first",
            ],
        )
        self.assertIn("log: room for 5 more; then none until the volume is converted", lines("scan", FIRST))
        self.assertIn("disk: 1 page is not GOOD there, and rebuilt at each reading; repair mends that", lines("scan", TURNED))

    def test_readme_shows_it(self):
        shown = (SAMPLES.parent / "README.md").read_text().partition("bin/pagestore scan ward.vol\n")[2].partition("\n\n")[0]
        self.assertEqual([line.strip() for line in shown.splitlines()], lines("scan", DEMO))

    def test_all_well(self):
        path = self.dir / "new.vol"
        run("new", path, *COUNTS)
        status, out, err = run("scan", path)
        self.assertEqual((status, err), (0, ""))
        self.assertEqual(out.decode().splitlines()[4:8], ["5 BLANK", "6 BLANK", "text: safe on every page", "disk: nothing to mend"])

    def test_room_that_no_page_bounds(self):
        turn = ("then pages have to be backed up first", "then pages have to be written or backed up again first")
        later = "then none until the volume is converted"
        slots = "then none: the volume has no slots for them"
        once = "then none: with one slot for the log, each is used once"
        for heading, records, notes, words in (
            (sample.SECOND, 2, 3, turn),
            (sample.SECOND, 2, 0, (turn[0], slots)),
            (sample.SECOND, 1, 3, (once, once)),
            (sample.FIRST, 2, 3, (later, later)),
            (sample.FIRST, 1, 0, (once, slots)),
        ):
            data = sample.volume(heading, [bytes(256)], [], [], [], records, notes)
            log, noted = run("scan", self.file(data))[1].decode().splitlines()[3:5]
            self.assertEqual(log, f"log: room for {records} more; {words[0]}")
            self.assertEqual(noted, f"notes: room for {notes} more; {words[1]}")

    def test_no_room_is_found(self):
        log = [sample.record(1, 0, 1, 1), sample.record(2, 1, 1, 2, payload=b"full")]
        body = b"full".ljust(244, b"\0")
        for notes, room in ((2, "log: room for 0 more"), (0, "log: room for 0 more")):
            data = sample.volume(sample.FIRST, [sample.image(sample.FIRST, 1, 2, body)], [], log, [], 2, notes)
            status, out, _ = run("scan", self.file(data))
            self.assertEqual((status, out.decode().splitlines()[0]), (1, "1 GOOD OWN 0"))
            self.assertIn(room, out.decode())
        data = sample.volume(sample.FIRST, [sample.image(sample.FIRST, 1, 2, body)], [], log, [], 3, 0)
        self.assertEqual(run("scan", self.file(data))[0], 0)

    def test_a_lost_page_hides_no_other(self):
        path = self.file(sample.visit())
        status, out, _ = run("scan", path)
        self.assertEqual((status, out.decode().splitlines()[4]), (1, "5 REFUSED 23"))
        self.assertIn("text: lost on 1 page; safe on the others (refused 23: The page is lost: ", out.decode())
        found = json.loads(run("scan", path, "--json")[1])
        self.assertEqual((found["pages"][4], found["lost"]), ({"page": 5, "refused": 23}, 1))

    def test_the_largest(self):
        path = self.file(sample.full())
        self.assertEqual(path.stat().st_size, 131092)
        self.assertEqual([w.split()[1] for w in lines("scan", path)[:64] if "GOOD" not in w], "FAILED STALE BEHIND REFUSED".split())

    def test_json(self):
        status, out, _ = run("scan", "--json", DEMO)
        found = json.loads(out)
        self.assertEqual((status, set(found)), (1, {"file", "heading", "pages", "mendable", "lost", "room", "upkeep"}))
        self.assertEqual((found["file"], found["heading"], found["mendable"], found["lost"]), (str(DEMO), "second", 4, 0))
        self.assertEqual(found["room"], {"records": 5, "recordPage": 1, "notes": 4, "notePage": 1})
        self.assertEqual(found["pages"][0], {"page": 1, "class": "GOOD", "start": "OWN", "count": 0})
        self.assertEqual(found["pages"][5], {"page": 6, "class": "BLANK"})
        self.assertEqual(json.loads(run("scan", "--json", FIRST)[1])["heading"], "first")

    def test_refusals(self):
        self.refused(1, "scan", self.file(b"CHP2 and more"))
        self.refused(17, "scan", self.file(hurt(DEMO, "log", 2)))
        self.refused(18, "scan", self.file(hurt(DEMO, "note", 2, 1)))


class Text(Trial):
    def test_show(self):
        status, out, err = run("show", DEMO, 5)
        self.assertEqual((status, err), (0, ""))
        raw = run("show", DEMO, 5, "--raw")[1]
        self.assertEqual((len(raw), out), (244, raw.rstrip(b"\0") + b"\n"))
        self.assertTrue(raw.startswith(b"06:20 dose given"))
        self.assertEqual(bytes.fromhex(run("show", "--hex", DEMO, 5)[1].decode()), raw)
        self.assertEqual(json.loads(run("show", DEMO, 5, "--json")[1]), {"page": 5, "text": raw.decode().rstrip("\0")})

    def test_show_not_done(self):
        self.refused(7, "show", DEMO, 6)
        self.refused(3, "show", DEMO, 7)
        self.refused(3, "show", DEMO, 0)
        self.refused(23, "show", self.file(sample.visit()), 5)
        self.told("x: not a page number", "show", DEMO, "x")
        self.told("5x: not a page number", "show", DEMO, "5x")
        self.told("one at a time", "show", DEMO, 5, "--raw", "--hex")

    def test_text_is_safe_for_a_terminal(self):
        text = "\x1b[2J ü \x7f".encode() + b"\xff\xc3" + b"\n\tend"
        log = [sample.record(1, 0, 1, 1), sample.record(2, 1, 1, 2, payload=text)]
        path = self.file(sample.volume(sample.SECOND, [b"\0" * 256], [], log, [], 4, 0))
        self.assertEqual(run("show", path, 1)[1], ".[2J ü ...\n\tend\n".encode())
        self.assertEqual(json.loads(run("show", path, 1, "--json")[1])["text"], "\x1b[2J ü \x7f\ufffd\ufffd\n\tend")
        self.assertEqual(lines("history", path, 1), ["1 FORMAT fill 0", "2 PUT 0 to 15: .[2J ü .....end"])

    def test_history(self):
        self.assertEqual(
            lines("history", DEMO, 2),
            ["2 FORMAT fill 32", "7 PUT 0 to 13: 06:00 all calm", "11 SLIDE 0 to 15: 06:20 dose given"],
        )
        found = json.loads(run("history", DEMO, 2, "--json")[1])
        self.assertEqual(set(found), {"page", "changes"})
        self.assertEqual(found["changes"][0], {"number": 2, "kind": "FORMAT", "fill": 32})
        self.assertEqual(
            found["changes"][2], {"number": 11, "kind": "SLIDE", "offset": 0, "length": 16, "text": "06:20 dose given"}
        )

    def test_history_of_a_turned_log_is_in_order(self):
        numbers = [int(line.split()[0]) for line in lines("history", TURNED, 1)]
        self.assertEqual(numbers, [3, 5, 6, 8, 9])
        self.assertEqual(run("history", DEMO, 6), (0, b"", ""))
        self.assertEqual(json.loads(run("history", DEMO, 6, "--json")[1]), {"page": 6, "changes": []})
        self.refused(3, "history", DEMO, 7)
        self.told("not a page number", "history", DEMO, "one")


class Slots(Trial):
    def test_log(self):
        found = lines("log", DEMO)
        self.assertEqual(len(found), 16)
        self.assertEqual(found[6], "7 record 7, page 2, after 2, PUT 0 to 13: 06:00 all calm")
        self.assertEqual((found[0], found[11], found[12]), ("1 record 1, page 1, after 0, FORMAT fill 32", "12 TORN", "13 EMPTY"))
        self.assertEqual(run("log", DEMO)[0], 0)

    def test_notes(self):
        self.assertEqual(
            lines("notes", TURNED)[2:],
            ["3 note 3, page 1 BACKED UP at record 5 in backup slot 3", "4 note 4, page 1 WRITTEN at record 9",
             "5 note 5, page 2 WRITTEN at record 10", "6 EMPTY"],
        )
        self.assertEqual(run("notes", TURNED)[0], 0)

    def test_they_name_the_slot_of_a_17_or_18(self):
        for command, part, number, slot in (("log", "log", 17, 2), ("notes", "note", 18, 3)):
            status, out, err = run(command, self.file(hurt(DEMO, part, slot, 5)))
            self.assertEqual((status, out.decode().splitlines()[slot - 1]), (1, f"{slot} TORN"))
            self.assertIn(f"refused {number}: ", err)

    def test_json(self):
        log = json.loads(run("log", DEMO, "--json")[1])["log"]
        names = {"slot", "is", "number", "previous", "page", "kind", "length", "offset", "fill"}
        self.assertEqual((set(log[0]), log[11], log[12]), (names, {"slot": 12, "is": "TORN"}, {"slot": 13, "is": "EMPTY"}))
        self.assertEqual((log[6]["is"], log[6]["kind"], log[6]["previous"]), ("WHOLE", "PUT", 2))
        notes = json.loads(run("notes", TURNED, "--json")[1])["notes"]
        expected = {"slot": 3, "is": "WHOLE", "number": 3, "page": 1, "kind": "BACKED UP", "backupSlot": 3, "record": 5}
        self.assertEqual(notes[2], expected)


class Others(Trial):
    def test_forecast(self):
        path = self.file(sample.visit())
        status, out, err = run("forecast", path)
        self.assertEqual((status, err), (1, ""))
        self.assertEqual(out.decode().splitlines()[:5], ["1 0", "2 2", "3 BLANK", "4 1", "5 REFUSED 23"])
        self.assertIn("refused 23: The page is lost", out.decode())
        pages = json.loads(run("forecast", "--json", path)[1])["pages"]
        self.assertEqual(pages[1:], [{"page": 2, "count": 2}, {"page": 3, "blank": True}, {"page": 4, "count": 1},
                                     {"page": 5, "refused": 23}])
        self.assertEqual(run("forecast", DEMO)[:2], (0, b"1 0\n2 1\n3 1\n4 0\n5 2\n6 BLANK\n"))
        self.refused(17, "forecast", self.file(hurt(DEMO, "log", 2)))

    def test_compare(self):
        self.assertEqual(run("compare", DEMO, FIRST), (0, b"AGREE\n", ""))
        mirror = self.file(sample.mirror())
        self.assertEqual(run("compare", DEMO, mirror), (1, b"DIFFERS 9\n2\n3\n4\n5\n", ""))
        fresh = self.dir / "fresh.vol"
        run("new", fresh, *COUNTS)
        self.assertEqual(run("compare", fresh, DEMO)[:2], (1, b"FIRST LACKS 11\n1\n2\n3\n4\n5\n"))
        self.assertEqual(run("compare", DEMO, fresh)[1].splitlines()[0], b"SECOND LACKS 11")
        found = json.loads(run("compare", DEMO, mirror, "--json")[1])
        self.assertEqual(found, {"answer": "DIFFERS", "number": 9, "pages": [2, 3, 4, 5]})

    def test_compare_names_the_one_that_is_refused(self):
        self.assertIn("turned.vol: refused 24: ", self.refused(24, "compare", DEMO, TURNED))
        self.assertIn("turned.vol: refused 24: ", self.refused(24, "compare", TURNED, DEMO))
        self.assertIn("some.vol: refused 17: ", self.refused(17, "compare", DEMO, self.file(hurt(DEMO, "log", 2))))


CASES = (Scan, Text, Slots, Others)
