"""Tests of the page that tools/judge writes by --html."""
import re
import shutil
import subprocess
import unittest

from .helper import ANCHORS, EXAMPLES, JUDGE, NOON, Judging, capture_of, needs, needs_dns, verdicts


@needs_dns
@needs("jinja2", "jinja2")
@unittest.skipUnless(shutil.which("dot"), "needs dot of Graphviz")
class Page(Judging):
    def test_a_page_of_two_captures(self):
        path, www, cut = self.room / "page.html", capture_of("bind-www-a"), capture_of("bind-cut-www")
        status, lines, errors = self.noon("--html", path, www, cut, "www.bind.test/A")
        self.assertEqual((status, len(verdicts(lines)), errors), (5, 2, ""))
        text = path.read_text()
        for part in ("www.bind.test. A: SecureAnswer, until 2027-03-01", "www.bind.test. A: Bogus", f"Records of {www}", f"Records of {cut}",
                     "message 6 record 1 (answer) RRset 6", "</html>"):
            self.assertIn(part, text)
        self.assertEqual(text.count("<svg "), 2)
        ids = re.findall(r"<[^>]* id=\"([^\"]*)\"", text)
        self.assertEqual(ids, ["v1", "v2"])

    def test_what_is_refused_has_its_line(self):
        path = self.room / "page.html"
        self.noon("--html", path, EXAMPLES / "refuses-a-query" / "capture", "a.test/A")
        self.assertIn("a.test. A: ", path.read_text())

    def test_without_graphviz(self):
        words = [*JUDGE, "--program", self.program, "--anchors", ANCHORS, "--at", NOON, "--html",
                 self.room / "page.html", capture_of("bind-www-a"), "www.bind.test/A"]
        done = subprocess.run([str(word) for word in words], env={"PATH": "/nowhere"}, capture_output=True, check=False)
        self.assertEqual((done.returncode, done.stdout, done.stderr),
                         (1, b"", b"judge: a picture needs the program dot (Debian: graphviz)\n"))

    def test_a_file_that_cannot_be_written(self):
        status, _, errors = self.noon("--html", self.room, capture_of("bind-www-a"), "www.bind.test/A")
        self.assertEqual((status, errors.count("\n")), (1, 1))


if __name__ == "__main__":
    unittest.main()
