"""What tools/faults says of calls that are made again, by programs that do right and that do wrong."""
import unittest

from failing import again
from failing.tally import Tally
from .programs import Programs

# It answers rows of `dnsv_rows` for a capture of two messages: a call for memory for each row that names octets, and before
# the tested one two more. FLAW is what it does wrong.
ROWS = r"""
#include <stdio.h>
#include <stdlib.h>
#include <string.h>
#define HAS(flaw) (strcmp(FLAW, flaw) == 0)
static char row[4096];
static int say(const char *text) { return fwrite(text, 1, strlen(text), stdout) ? 0 : 9; }
int main(void) {
  setvbuf(stdout, NULL, _IONBF, 0);
  setvbuf(stdin, NULL, _IONBF, 0);
  if (!malloc(1)) return fprintf(stderr, "no memory\n"), 1;
  int unread = 0;
  while (fgets(row, sizeof row, stdin) && row[0] == 'l')
    if (!malloc(4)) unread = 1, say("malformed row\n");
  if (unread) return say("malformed row\n");
  if (!malloc(2)) return say("out of memory\n");
  int lacks = !malloc(3), adds = row[0] == 'a';
  if (HAS("crashes") && lacks) abort();
  if (lacks && HAS("goes on")) lacks = 0;
  if (adds) return say(!lacks ? "refused 0, 1:a 2:b\n" : HAS("forgets") ? "refused 1, 2:b\n" : "refused 1, 1:a 2:b\n");
  return say(!lacks ? "ok, 0a 0b aa\n" : HAS("forgets") ? "refused 90, 0b\n" : "refused 90, 0a\n");
}
"""


class Again(Programs):
    def rows(self, flaw=""):
        bench, total = self.bench(self.program(ROWS, flaw)), Tally()
        for job, *given in again.jobs([self.case()]):
            total.add(job(bench.tried, *given))
        return total

    def test_a_call_that_is_made_again(self):
        rows = self.rows().rows
        self.assertEqual(rows["again: add, small/show"], {again.GRANTED: 1, again.OTHERS: 3, again.AGAIN: 1})
        for name, count in (("small/show", 4), ("small/show, in pieces", 6)):
            self.assertEqual(rows[f"again: feed, {name}"], {again.GRANTED: 1, again.OTHERS: count, again.FOR_EVER: 1})

    def test_what_goes_wrong(self):
        for flaw in ("crashes", "forgets"):
            self.assertEqual(self.rows(flaw).counts(), (16, 6), flaw)

    def test_a_call_that_is_never_refused(self):
        self.assertEqual(self.rows("goes on").counts(), (19, 3))


if __name__ == "__main__":
    unittest.main()
