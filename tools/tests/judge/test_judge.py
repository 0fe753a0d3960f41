"""Tests of tools/judge: what it prints, how it ends, and that no name does any harm."""
import json
import os
import shutil
import subprocess

from tool import run_program

from .helper import ANCHORS, EXAMPLES, JUDGE, NOON, Judging, capture_of, needs_dns, verdicts

WWW, NOSUCH, CUT = map(capture_of, ("bind-www-a", "bind-nosuch", "bind-cut-www"))
BAD_NAMES = ("a b", "it's", "*", "a;touch X", "$(touch X)", "`touch X`", "back\\slash", "two\nlines", "-x", "tab\tbed",
             'quo"ted', "esc\x1b[2J", os.fsdecode(b"octet\xff"))
MISSING = "nobody asked for it, or its answer was lost or truncated"


@needs_dns
class Lines(Judging):
    def test_a_line_says_the_verdict_and_until_when_it_holds(self):
        answer = "www.bind.test. A: SecureAnswer, until 2027-03-01 (98 days)"
        self.assertEqual(self.noon(WWW, "www.bind.test/A"), (0, [answer], ""))
        denied = "nosuch.bind.test. A: SecureNoName, until 2027-03-01 (98 days)"
        self.assertEqual(self.noon("nosuch.bind.test./1", NOSUCH), (0, [denied], ""))

    def test_what_is_insecure_says_why(self):
        lines = ["www.ins.bind.test. A: Insecure from ins.bind.test. on, until 2027-03-01 (98 days)",
                 "  WHY ins.bind.test.: it is delegated without DS, says bind.test."]
        self.assertEqual(self.noon(CUT, "www.ins.bind.test/a"), (3, lines, ""))

    def test_what_is_bogus_says_what_to_look_at(self):
        status, lines, _ = self.noon(capture_of("expired-www-a"), "www.expired.test/A")
        told = "  FAIL expired.test. DNSKEY: the signature by key 53641 expired on 2026-10-01 (52 days ago) [EDE 7]"
        self.assertEqual((status, lines[:2]), (5, ["www.expired.test. A: Bogus", told]))
        status, lines, _ = self.noon(WWW, "other.bind.test/A")
        told = f"  FAIL other.bind.test. A: {MISSING} [EDE 12]"
        self.assertEqual((status, lines[:2]), (5, ["other.bind.test. A: Bogus", told]))

    def test_a_refusal_says_which_file_and_what_to_do(self):
        query = EXAMPLES / "refuses-a-query" / "capture"
        if self.room not in self.program.parents:
            status, lines, _ = self.noon(query, "a.test/A")
            self.assertEqual(status, 7)
            self.assertIn(f"a.test. A: refused 401 message 2 of the capture {query}: it is a query; ", lines[0])

    def test_a_name_too_long_for_an_argument_has_its_line(self):
        path, wrong = self.room / "questions", (("a." * 100000, 104), ("\\097." * 50000, 104), ("a" * 200000 + ".", 103))
        for name, number in wrong:
            path.write_text(f"{name} A\nwww.bind.test A\n")
            status, lines, errors = self.noon(WWW, "--questions", path)
            self.assertEqual((len(verdicts(lines)), errors), (2, ""))
            self.assertTrue(lines[-1].startswith("www.bind.test. A: SecureAnswer"))
            if self.room not in self.program.parents:
                self.assertEqual(status, 7)
                self.assertTrue(lines[0].startswith(f"{name} A: refused {number} the name: "))

    def test_several_captures_and_moments_stand_in_their_lines(self):
        status, lines, _ = self.judge("--at", "2026-11-22T12:00:00Z", "--at", "2026-11-22T13:00:00+01:00", "--anchors", ANCHORS,
                                      WWW, CUT, "www.bind.test/A")
        self.assertEqual(status, 5)
        self.assertEqual(lines[0], f"{WWW}: www.bind.test. A: SecureAnswer, until 2027-03-01 (98 days)")
        self.assertEqual(verdicts(lines)[1:], [f"{CUT}: www.bind.test. A: Bogus"])
        _, lines, _ = self.judge("--at", "0", "--at", NOON, "--anchors", ANCHORS, WWW, "www.bind.test/A")
        first, second = verdicts(lines)
        self.assertEqual(first, "www.bind.test. A at 1970-01-01T00:00:00Z: Bogus")
        self.assertTrue(second.startswith("www.bind.test. A at 2026-11-22T12:00:00Z: SecureAnswer, until "))

    def test_tables(self):
        status, lines, _ = self.noon("--tsv", NOSUCH, WWW, "nosuch.bind.test/A")
        head = "capture\tmoment\tname\ttype\tstatus\tverdict\tevidence\tuntil\treason\tede\treasons\todd"
        row = (f"{NOSUCH}\t{NOON}\tnosuch.bind.test.\tA\t0\tSecureNoName\trecord nodatalias.bind.test. NSEC; record bind.test. NSEC"
               "\t1803859200\t\t\t\tends-at-once,rsa-short")
        said = f"nosuch.bind.test. A: {MISSING}"
        bogus = f"{WWW}\t{NOON}\tnosuch.bind.test.\tA\t5\tBogus\t\t\t{said}\t12\t{said} [EDE 12]\t"
        self.assertEqual((status, lines), (5, [head, row, bogus]))
        _, lines, _ = self.noon("--jsonl", WWW, "www.bind.test/A")
        carried = {"rrset": 6, "signature": 1, "signer": "bind.test.", "key": 11133}
        self.assertEqual(json.loads(lines[0]), {"capture": str(WWW), "moment": int(NOON), "name": "www.bind.test.", "type": "A",
                                                "status": 0, "verdict": "SecureAnswer", "evidence": carried,
                                                "until": 1803859200, "reason": None, "ede": None, "reasons": [], "odd": ["rsa-short"]})

    def test_several_at_once_give_the_same(self):
        for number in range(7):
            shutil.copy((WWW, NOSUCH, CUT)[number % 3], self.room / f"{number}.cap")
        words = ("--tsv", self.room, "www.bind.test/A", "nosuch.bind.test/A")
        one, several = self.noon("--jobs", "1", *words), self.noon("--jobs", "3", *words)
        self.assertEqual((one, len(one[1])), (several, 15))


@needs_dns
class Words(Judging):
    def test_questions_come_from_files_too(self):
        path = self.room / "questions"
        path.write_text("# all\n\nwww.bind.test/A\n  www.bind.test.\t AAAA # both\nc/d.test A\n")
        _, lines, _ = self.noon("--jsonl", WWW, "--questions", path)
        asked = [(row["name"], row["type"]) for row in map(json.loads, lines)]
        self.assertEqual(asked, [("www.bind.test.", "A"), ("www.bind.test.", "AAAA"), ("c/d.test.", "A")])
        path.write_text("www.bind.test/A\nwww.bind.test\n")
        self.assertEqual(self.noon(WWW, "--questions", path), (7, [], f"judge: refused: line 2 of {path} is no question: write NAME/TYPE or NAME TYPE\n"))

    def test_files_without_a_question_are_refused(self):
        path, other = self.room / "questions", self.room / "others"
        other.write_text("")
        shutil.copy(WWW, self.room / "www.cap")
        for text in ("", "\n", "# none\n \t\r\n"):
            path.write_text(text)
            for capture in (WWW, self.room):
                told = self.noon(capture, "--questions", path)
                self.assertEqual(told, (7, [], f"judge: refused: no question is in {path}\n"))
        told = self.noon(WWW, "--questions", path, "--questions", other)
        self.assertEqual(told, (7, [], f"judge: refused: no question is in {path}, {other}\n"))
        self.assertEqual(self.noon(WWW, "www.bind.test/A", "--questions", path)[0], 0)

    def test_a_split_folder_asks_its_own(self):
        shutil.copy(WWW, self.room / "0001-www.bind.test.-1.cap")
        shutil.copy(NOSUCH, self.room / "0002-nosuch.bind.test.-1.cap")
        (self.room / "questions").write_text("0001-www.bind.test.-1 www.bind.test. 1\n0002-nosuch.bind.test.-1 nosuch.bind.test. 1\n")
        status, lines, _ = self.noon(self.room)
        self.assertEqual((status, len(lines)), (0, 2))
        self.assertIn("www.bind.test. A: SecureAnswer", lines[0])
        self.assertIn("nosuch.bind.test. A: SecureNoName", lines[1])

    def test_a_file_of_questions_in_the_folder_is_no_list_of_captures_where_questions_are_given(self):
        shutil.copy(WWW, self.room / "www.cap")
        questions = self.room / "questions"
        questions.write_text("www.bind.test A\n")
        for words in (("www.bind.test/A",), ("--questions", questions)):
            status, lines, errors = self.noon(self.room, *words)
            self.assertEqual((status, len(lines), errors), (0, 1, ""))
        self.assertEqual(self.judge("--records", self.room)[0::2], (0, ""))
        self.assertIn("isn't one of `capture --split`", self.noon(self.room)[2])

    def test_a_capture_beside_a_split_folder_is_not_passed_over(self):
        shutil.copy(WWW, self.room / "1.cap")
        (self.room / "questions").write_text("1 www.bind.test. 1\n")
        for words in ((self.room, NOSUCH), (NOSUCH, self.room)):
            status, lines, errors = self.noon(*words)
            self.assertEqual((status, lines), (2, []))
            self.assertIn(f"no question is asked of {NOSUCH}; write NAME/TYPE", errors)

    def test_behind_two_dashes_words_may_begin_with_a_dash(self):
        options, told = ("--at", NOON, "--anchors", ANCHORS), "-x.bind.test. A: Bogus"
        for words in ((WWW, *options, "--", "-x.bind.test/A"), (*options, "--", WWW, "-x.bind.test/A"),
                      (*options, WWW, "--", "-x.bind.test/A"), ("a.test/A", *options, "--", WWW, "-x.bind.test/A")):
            status, lines, errors = self.judge(*words)
            self.assertEqual((status, verdicts(lines)[-1:], errors), (5, [told], ""))
        self.assertIn("error: --: there is no such file", self.noon("--", WWW, "--/A", "--")[2])

    def test_anchors_of_xml_hold_at_their_moments(self):
        fields = ANCHORS.read_text().splitlines()[-1].split()[1:]
        names = ("Zone", "KeyTag", "Algorithm", "DigestType", "Digest")
        zone, *digest = (f"<{name}>{field}</{name}>" for name, field in zip(names, fields))
        path = self.room / "root-anchors.xml"
        path.write_text(f'<TrustAnchor>{zone}<KeyDigest validFrom="2026-11-22T12:00:00+00:00">{"".join(digest)}</KeyDigest></TrustAnchor>')
        status, lines, errors = self.judge("--at", NOON, "--at", int(NOON) - 1, "--anchors", path, WWW, "www.bind.test/A")
        if self.room not in self.program.parents:
            self.assertEqual((status, verdicts(lines), errors), (6, [
                "www.bind.test. A at 2026-11-22T12:00:00Z: SecureAnswer, until 2027-03-01 (98 days)",
                "www.bind.test. A at 2026-11-22T11:59:59Z: Indeterminate"],
                f"judge: note: of the anchors {path} none may be used at 2026-11-22T11:59:59Z\n"))

    def test_the_standard_input_is_a_capture(self):
        self.assertEqual(self.noon("-", "www.bind.test/A", given=WWW.read_bytes())[0], 0)

    def test_names_do_no_harm(self):
        """Captures and questions of such names each have their line, and nothing else happens."""
        for name in BAD_NAMES:
            shutil.copy(WWW, self.room / f"{name}.cap")
        questions = self.room / "list"
        asked = [name for name in BAD_NAMES if "\n" not in name]
        questions.write_bytes(b"".join(os.fsencode(f"{name}.test/A\n") for name in asked))
        for words, count in (((WWW, "--questions", questions), len(asked)), ((self.room, "www.bind.test/A"), len(BAD_NAMES))):
            status, lines, errors = self.noon("--tsv", *words)
            self.assertEqual((status in (0, 5, 7), errors, len(lines)), (True, "", 1 + count))
            self.assertTrue(all(line.count("\t") == 11 and line.replace("\t", "").isprintable() for line in lines))
        told = {os.fsencode(json.loads(line)["capture"]) for line in self.noon("--jsonl", self.room, "www.bind.test/A")[1]}
        self.assertEqual(told, {os.fsencode(self.room / f"{name}.cap") for name in BAD_NAMES})
        self.assertFalse((self.room / "X").exists() or os.path.exists("X"))
        status, lines, errors = self.noon(WWW, "--", *(f"{name}.test/A" for name in BAD_NAMES))
        self.assertEqual((errors, len(verdicts(lines)), status in (5, 7)), ("", len(BAD_NAMES), True))


@needs_dns
class Ends(Judging):
    def wrong(self, *words):
        status, lines, errors = self.judge(*words)
        self.assertEqual((status, lines), (2, []))
        return errors

    def test_a_wrong_command_line(self):
        self.assertIn("no such file; a question is written NAME/TYPE", self.wrong("nosuch.cap"))
        self.assertIn("'AX' is no type", self.wrong(WWW, "a.test/AX"))
        self.assertIn("/nosuch/A: there is no such file\n", self.wrong(WWW, "/nosuch/A"))
        self.assertIn("no capture is named", self.wrong("a.test/A"))
        self.assertIn("no question is asked", self.wrong(WWW))
        self.assertIn("is no moment", self.wrong(WWW, "a.test/A", "--at", "2026-11-31"))
        self.assertIn("a day, as 2026-11-22, ", self.wrong(WWW, "a.test/A", "--at", "yesterday"))
        self.assertIn("given twice", self.wrong(WWW, "a.test/A", "--anchors", ANCHORS, "--anchors", ANCHORS))
        self.assertIn("exclude each other", self.wrong(WWW, "a.test/A", "--tsv", "--jsonl"))
        self.assertIn("--macs needs --keys", self.wrong(WWW, "a.test/A", "--macs", ANCHORS))
        self.assertIn("--html is given twice", self.wrong(WWW, "a.test/A", "--html", "a", "--html", "b"))
        self.assertIn("--wait goes with --scheduler", self.wrong(WWW, "a.test/A", "--wait", "5"))

    def test_the_standard_input_is_read_once(self):
        keys = ("--keys", ANCHORS)
        for words in (("-", "-", "a.test/A"), ("-", "--questions", "-"), ("-", "a.test/A", "--anchors", "-"), ("--records", "-", "-"),
                      ("-", "a.test/A", "--keys", "-"), ("-", "a.test/A", *keys, "--macs", "-"),
                      (WWW, "--questions", "-", "--questions", "-"), (WWW, "--questions", "-", "--", "-")):
            self.assertIn("error: the standard input is named twice", self.wrong(*words))

    def test_a_capture_that_cannot_be_read(self):
        path = self.room / "x.cap"
        path.symlink_to(self.room / "nowhere")
        status, lines, _ = self.noon("--tsv", path, WWW, "www.bind.test/A")
        self.assertEqual((status, len(lines)), (1, 3))
        self.assertEqual(lines[1], f"{path}\t{NOON}\twww.bind.test.\tA\t1\tfault\t811 capture\t\t\t\t\t")

    def test_a_read_that_fails(self):
        """A file that opens and can't be read where it begins, by its name and as the standard input."""
        words = ("--program", self.program, "--at", NOON, "--anchors", ANCHORS, "www.bind.test/A")
        for path in ("/proc/self/mem", "-"):
            with open("/proc/self/mem", "rb") as given:
                done = subprocess.run([str(word) for word in (*JUDGE, *words, path)], stdin=given, capture_output=True,
                                      check=False, text=True)
            self.assertEqual((done.returncode, done.stderr), (1, ""))
            self.assertIn(f"fault 210 the capture {path}: the file could be opened, but not read; ", done.stdout)

    def test_a_folder_that_cannot_be_read_is_told_before_anything_is_judged(self):
        """One below so many that its path is too long, which is so for root too."""
        shutil.copy(WWW, self.room / "www.cap")
        place = os.open(self.room, os.O_RDONLY)
        for _ in range(20):
            os.mkdir("d" * 240, dir_fd=place)
            above, place = place, os.open("d" * 240, os.O_RDONLY, dir_fd=place)
            os.close(above)
        os.close(place)
        for words in (("www.bind.test/A",), ("--records",)):
            status, lines, errors = self.noon(self.room, *words)
            self.assertEqual((status, lines, errors.count("\n")), (1, [], 1))
            self.assertIn("File name too long", errors)

    def test_what_is_not_there(self):
        words = ("--at", NOON, WWW, "www.bind.test/A")
        status, lines, errors = self.judge("--anchors", self.room / "none", *words)
        self.assertEqual((status, lines, errors.count("\n")), (1, [], 1))
        status, output, errors = run_program(*JUDGE, "--program", self.room / "none", "--anchors", ANCHORS, *words)
        self.assertEqual((status, output, errors), (1, b"", f"judge: {self.room / 'none'}: there is no such program\n"))
        (self.room / "empty").mkdir()
        self.assertIn("no capture is in this folder", self.judge(self.room / "empty", "a.test/A")[2])
