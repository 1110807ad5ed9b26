"""The habits of all commands: help, options, files that are none, output that fails."""
import json
import os
import re
import shutil
import subprocess
import threading
import time

from trial import COMMANDS, COUNTS, DEMO, FIRST, ROOT, TOOL, Trial, lines, run, sample


class Use(Trial):
    def test_help_and_version(self):
        status, out, err = run("--help")
        self.assertEqual((status, err), (0, ""))
        for command in COMMANDS:
            self.assertIn(f"\n  {command} ", out.decode())
            status, own, err = run(command, "--help")
            self.assertEqual((status, own.decode().split()[:3], err), (0, ["usage:", "pagestore", command], ""))
        version = (DEMO.parent.parent / "VERSION").read_text()
        self.assertEqual(run("--version"), (0, f"pagestore {version}".encode(), ""))

    def test_the_manual_has_every_command_option_and_json_name(self):
        manual = (ROOT / "man/pagestore.1").read_text().replace("\\-", "-")
        field = (ROOT / "docs/FIELD.md").read_text()
        for command in COMMANDS:
            self.assertRegex(manual, rf"\n\.BI {command} ")
            self.assertIn(f"pagestore {command} ", field)
            for word in re.findall(r"--?[a-z]+", run(command, "--help")[1].decode()):
                self.assertIn(word, manual)
        arc = self.file(sample.demo_archive(), "a.arc")
        for words in (["scan", DEMO], ["show", DEMO, 1], ["history", DEMO, 2], ["log", DEMO], ["notes", DEMO], ["forecast", DEMO],
                      ["repair", DEMO, "-o", self.dir / "r"], ["archive", DEMO, "-o", self.dir / "a"], ["compare", DEMO, DEMO],
                      ["restore", arc, "-o", self.dir / "s"], ["convert", FIRST, "-o", self.dir / "c"],
                      ["map", DEMO, "-o", self.dir / "m"], ["new", self.dir / "n", *COUNTS]):
            for name in re.findall(r'"(\w+)":', run(*words, "--json")[1].decode()):
                self.assertRegex(manual, rf"\b{name}\b", words)

    def test_wrong_use(self):
        x = self.dir / "x"
        for words, why in (
            ([], "usage: pagestore COMMAND"),
            (["nothing"], "nothing: no such command"),
            (["scan"], "a file is missing"),
            (["show", DEMO], "a word is missing"),
            (["scan", DEMO, DEMO], "one word too many"),
            (["scan", "--raw", DEMO], "--raw: no such option"),
            (["scan", "--force", DEMO], "--force: no such option"),
            (["restore", DEMO, "-o", x, "--pages", 3], "--pages: no such option"),
            (["scan", "-x", DEMO], "-x: no such option"),
            (["archive", DEMO, "-o"], "-o: its value is missing"),
            (["repair", DEMO], "-o OUT is missing"),
            (["new", x, "--pages"], "--pages: its value is missing"),
            (["new", x, "--pages", "-1"], "-1: not a number"),
        ):
            self.told(why, *words)
        self.assertFalse(x.exists())

    def test_options_stand_anywhere(self):
        self.assertEqual(run("scan", "--json", DEMO), run("scan", DEMO, "--json"))
        self.assertEqual(run("archive", "-o", "-", DEMO), run("archive", DEMO, "-o", "-"))

    def test_every_command_takes_every_flag_or_says_so(self):
        flags = ["--json", "--force", "--raw", "--hex", "--help", "-o", "--pages", "--slots", "--log", "--notes"]
        shutil.copy(DEMO, self.dir / "v")
        for command in COMMANDS:
            for flag in flags:
                self.assertIn(run(command, "v", flag, 1, cwd=self.dir)[0], (0, 1, 2), (command, flag))


class Files(Trial):
    def test_standard_input(self):
        data = DEMO.read_bytes()
        self.assertEqual(run("scan", "-", stdin=data)[1], run("scan", DEMO)[1])
        self.assertEqual(json.loads(run("scan", "-", "--json", stdin=data)[1])["file"], "standard input")
        self.assertIn("standard input: empty", run("scan", "-")[2])

    def test_files_that_are_none(self):
        for name, words in ((self.dir / "missing", "No such file"), (self.dir, "a directory, and not a file"),
                            ("/proc/self/mem", "Input/output error"), (DEMO / "x", "Not a directory")):
            for command in ("scan", "log"):
                status, out, err = run(command, name)
                self.assertEqual((status, out), (3, b""))
                self.assertIn(f"pagestore: {name}: {words}", err)
        self.told("empty: neither a volume nor an archive", "scan", self.file(b""))
        self.told("longer than the largest volume (131,092 bytes)", "scan", self.file(bytes(131093)))
        self.told("longer than the largest volume", "scan", "/dev/zero")
        self.refused(1, "scan", self.file(bytes(131092)))
        self.refused(1, "scan", self.file(DEMO.read_bytes()[:-1]))
        self.refused(1, "scan", self.file(DEMO.read_bytes() + b"\0"))

    def test_unreadable(self):
        path = self.file(DEMO.read_bytes())
        path.chmod(0)
        if os.geteuid() != 0:
            status, _, err = run("scan", path)
            self.assertEqual(status, 3)
            self.assertIn("Permission denied", err)

    def test_odd_names(self):
        for name in ("-dash.vol", "a b.vol", "ü\n.vol", "x" * 255, '"\\', os.fsdecode(b"\xff")):
            shutil.copy(DEMO, self.dir / name)
            self.assertEqual(run("scan", "--", name, cwd=self.dir)[1], run("scan", DEMO)[1])
            json.loads(run("scan", "--json", "--", name, cwd=self.dir)[1])
            self.assertEqual(run("archive", self.dir / name, "-o", self.dir / "out" / name)[0], 3)
        self.assertEqual(json.loads(run("scan", "--json", "--", '"\\', cwd=self.dir)[1])["file"], '"\\')
        self.assertIn("pagestore: .[2J: No such file", run("scan", "\x1b[2J")[2])

    def test_a_slow_pipe(self):
        process = subprocess.Popen([TOOL, "scan", "-"], stdin=subprocess.PIPE, stdout=subprocess.PIPE)
        data = DEMO.read_bytes()

        def feed():
            for i in range(0, len(data), 1000):
                process.stdin.write(data[i : i + 1000])
                process.stdin.flush()
                time.sleep(0.01)
            process.stdin.close()

        thread = threading.Thread(target=feed)
        thread.start()
        out = process.stdout.read()
        thread.join()
        process.stdout.close()
        self.assertEqual((process.wait(), out), (1, run("scan", DEMO)[1]))


class Output(Trial):
    def fails(self, end, *words):
        """The command, its standard output redirected by the shell: status 3 and a sentence."""
        line = subprocess.list2cmdline([TOOL, *map(str, words)])
        done = subprocess.run(["sh", "-c", f"exec {line} {end}"], stderr=subprocess.PIPE, timeout=60, check=False)
        self.assertEqual(done.returncode, 3, words)
        self.assertIn(b"pagestore: standard output: ", done.stderr)

    def test_full_device_and_closed_output(self):
        for command in ("scan", "log", "notes", "forecast"):
            self.fails("> /dev/full", command, DEMO)
            self.fails(">&-", command, DEMO)
            self.fails("> /dev/full", command, DEMO, "--json")
        for words in (["show", DEMO, 1], ["history", DEMO, 1], ["compare", DEMO, DEMO], ["--help"],
                      ["scan", "--help"], ["--version"], ["archive", DEMO, "-o", "-"], ["map", DEMO, "-o", "-"],
                      ["new", "-", *COUNTS]):
            self.fails("> /dev/full", *words)
            self.fails(">&-", *words)

    def test_what_was_made_stays_where_only_the_telling_failed(self):
        out = self.dir / "m.vol"
        self.fails(">&-", "repair", DEMO, "-o", out)
        self.assertEqual(lines("scan", out)[7], "disk: nothing to mend")

    def test_a_reader_that_went_away(self):
        process = subprocess.Popen([TOOL, "scan", "-"], stdin=subprocess.PIPE, stdout=subprocess.PIPE, stderr=subprocess.PIPE)
        process.stdout.close()
        process.stdin.write(DEMO.read_bytes())
        process.stdin.close()
        err = process.stderr.read()
        process.stderr.close()
        self.assertEqual((process.wait(), err), (3, b"pagestore: standard output: Broken pipe\n"))

    def test_closed_descriptors_are_not_reused(self):
        out = self.dir / "a.arc"
        done = subprocess.run(["sh", "-c", f"exec {TOOL} archive {DEMO} -o {out} <&- >&- 2>&-"], check=False)
        self.assertEqual(done.returncode, 0)
        self.assertEqual(out.read_bytes(), run("archive", DEMO, "-o", "-")[1])


CASES = (Use, Files, Output)
