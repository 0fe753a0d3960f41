"""What tools/faults says of programs that do right, and that do wrong, on captures that are cut, changed or incomplete."""
import unittest

from tool import PROGRAM
from failing import captures, denials, documented
from failing.runs import Answer, Bench, case_of, small_cases
from failing.tally import Tally
from .programs import Programs

_, SMALL = small_cases()
LISTING = case_of("keys-and-host/list-all")
DATA = captures.signed_data(SMALL.right, LISTING.right.output).decode()

# It answers by the sizes of its three files, without looking into them, and lists the signed data.
BY_SIZE = r"""
#include <fcntl.h>
#include <stdio.h>
#include <string.h>
#include <unistd.h>
#define HAS(flaw) (strcmp(FLAW, flaw) == 0)
static long size(const char *path) { return lseek(open(path, O_RDONLY), 0, SEEK_END); }
static int refused(const char *number) { return fprintf(stderr, "refused %s\n", number), 7; }
static int told(const char *text, int status) { return printf("%s\n", text), status; }
int main(int count, char **words) {
  long capture = size(words[3]);
  if (strcmp(words[1], "list") == 0) return told(HAS("other data") ? "data 2 1 00" : "data 2 1 " DATA, 0);
  if (HAS("cuts") && capture == 100) *(volatile char *)0 = 1;
  if (HAS("cuts") && capture == 101) return refused("299");
  if (HAS("cuts") && capture == 102) return told("Bogus host.example. 1", 5);
  if (HAS("denies") && capture == 191) return told("SecureNoName host.example. 1\nrecord example. 47", 0);
  if (HAS("fails") && capture == 191) return fprintf(stderr, "fault 90\n"), 1;
  if (capture == 0 || capture == 86) return told("Bogus host.example. 1", 5);
  if (capture != 191) return refused("209");
  if (size(words[5]) < 26) return refused("601 line 1");
  if (size(words[7]) < STATEMENTS - 1 && !HAS("needs none")) return refused("501 line 2");
  return told("SecureAnswer host.example. 1\nrrset 2 signature 1", 0);
}
"""


class Small(Programs):
    def setUp(self):
        self.small, self.listing = SMALL, LISTING

    def bench_of(self, flaw):
        size = self.small.files["statements"].stat().st_size
        text = f'#define DATA "{DATA}"\n#define STATEMENTS {size}\n{BY_SIZE}'
        return self.bench(self.program(text, flaw))

    def test_each_beginning_is_tried(self):
        tried, total = self.bench_of("").tried, Tally()
        for job, *given in captures.cut_jobs(self.small):
            total.add(job(tried, *given))
        sizes = [path.stat().st_size for path in self.small.files.values()]
        self.assertEqual(sizes[0], 191)
        self.assertEqual(total.counts(), (sum(sizes) + 3, 0))
        self.assertEqual(total.rows["cut: keys-and-host/check, capture"],
                         {"refused 209": 189, "Bogus": 2, "SecureAnswer": 1})

    def test_beginnings_that_end_wrong(self):
        tally = captures.cut_captures(self.bench_of("cuts").tried, self.small)
        self.assertEqual(tally.wrong["cut: keys-and-host/check, capture"], [
            "the first 100 octets: status -11", r"the first 101 octets: status 7, told 'refused 299\n'",
            r"the first 102 octets: status 5, wrote 'Bogus host.example. 1\n'"])

    def test_an_answer_without_its_statements(self):
        tally = captures.cut_texts(self.bench_of("needs none").tried, self.small, "statements")
        size = self.small.files["statements"].stat().st_size
        self.assertEqual(tally.counts(), (2, size - 1))

    def changed(self, flaw=""):
        jobs = list(captures.octet_jobs(self.small, self.listing))
        self.assertEqual(len(jobs), 191)
        job, *given = jobs[7]
        return job(self.bench_of(flaw).tried, *given)

    def test_each_octet_is_changed(self):
        self.assertEqual(self.changed().rows, {"octets: keys-and-host/check": {"SecureAnswer": 255}})
        for flaw in ("other data", "denies", "fails"):
            tally = self.changed(flaw)
            self.assertEqual(tally.counts(), (0, 255))
        self.assertTrue(self.changed("fails").wrong["octets: keys-and-host/check"][0].startswith("octet 7 (from 0) as 0: "))


class LeftOut(Programs):
    WORKED = denials.WORKED[0]
    WHOLE = "SecureNoName zz.example. 1\nrecord z.example. 47\nrecord example. 47\n"

    def test_a_denial_by_what_is_not_there_is_wrong(self):
        tally = denials.left_out(self.script(f"printf '{self.WHOLE}'\n"), self.WORKED)
        self.assertEqual(tally.rows["left-out: worked denials, whole"], {"SecureNoName": 1})
        # It takes the key to be there by its owner and type, which is what a denial names.
        self.assertEqual([line.split(":")[0] for line in tally.wrong["left-out: worked denials"]],
                         ["no name without z.example. NSEC", "no name without example. NSEC"])

    def test_a_refusal_is_no_verdict(self):
        tally = denials.left_out(self.script("echo refused 206 message 1 record 1 >&2; exit 7\n"), self.WORKED)
        self.assertEqual(tally.counts(), (0, 4))

    def test_messages_of_a_real_capture(self):
        case = case_of("bind-nosuch/check")
        count = len(denials.messages_of(case.files["capture"].read_bytes()))
        said = case.right.output.decode()
        show = 'if [ "$1" = show ]; then echo "record 1 Bind.Test. 47 1 5 00"; exit; fi\n'
        tally = denials.messages_left_out(self.script(f"{show}printf '{said}'\n"), case)
        self.assertEqual(tally.counts(), (0, count))
        named = "".join(f"record 1 {owner} {rtype} 1 5 00\\n" for owner, rtype in denials.records_of(case.right))
        show = f'if [ "$1" = show ]; then printf "{named}"; exit; fi\n'
        tally = denials.messages_left_out(self.script(f"{show}printf '{said}'\n"), case)
        self.assertEqual(tally.counts(), (count, 0))


class Documented(unittest.TestCase):
    def kind(self, status, output, errors=""):
        return documented.kind_of(Answer(status, output.encode(), errors.encode()))

    def test_ends_that_the_pages_tell_of(self):
        self.assertEqual(self.kind(7, "", "refused 206 message 1 record 2\n"), "refused 206")
        self.assertEqual(self.kind(1, "", "fault 811 capture\n"), "fault 811 capture")
        alias = "alias a. rrset 2 signature 1\n"
        self.assertEqual(self.kind(0, f"SecureAnswer a. 1\n{alias}rrset 3 signature 1\n"), "SecureAnswer")
        self.assertEqual(self.kind(3, "Insecure a.b. 1\ncut b.\n"), "Insecure")
        self.assertEqual(self.kind(4, "Pending a. 1\ntodo 13 00 ab -\n"), "Pending")

    def test_other_ends(self):
        for given in ((5, "SecureAnswer a. 1\nrrset 3 signature 1\n"), (7, "", "refused 90\n"), (7, "x", "refused 209\n"),
                      (0, "SecureNoName a. 1\n"), (0, "SecureNoName a. 1\nrecord b. 1\n"), (5, "Bogus a. 1\n", "x"),
                      (5, "Bogus a. 1\n\n"), (1, "", "fault 210\n"), (3, "Insecure a. 1\n"), (-11, "")):
            self.assertIsNone(self.kind(*given))


@unittest.skipUnless(PROGRAM.exists(), "needs the built program")
class Worked(Programs):
    def test_the_program_says_what_has_to_come(self):
        for worked in denials.WORKED:
            with self.subTest(worked.title), Bench(self.script("")._replace(program=PROGRAM)) as bench:
                tally = denials.left_out(bench.tried, worked)
                self.assertEqual(tally.wrong, {})


if __name__ == "__main__":
    unittest.main()
