"""Small programs in C, and the folder in which a test builds and runs them."""
import pathlib
import shutil
import subprocess
import tempfile
import unittest

from failing.refusal import built
from cases import examples_of
from failing.runs import Bench, Case, Tried

# It asks for memory in five ways, reads the file that is named and writes what it read; a letter on the errors for each
# call that was refused. Before `main` it asks too.
ASKING = r"""
#define _GNU_SOURCE
#include <errno.h>
#include <fcntl.h>
#include <stdlib.h>
#include <sys/uio.h>
#include <unistd.h>
static void *early;
__attribute__((constructor)) static void before(void) { early = malloc(8); }
static void tell(char letter, int is_refused, int wanted) {
  char wrong = '?';
  if (is_refused && write(2, errno == wanted ? &letter : &wrong, 1) != 1) _exit(9);
}
int main(int count, char **words) {
  char octets[64];
  void *aligned = NULL, *given = malloc(8), *more = realloc(NULL, 16);
  tell('m', given == NULL, ENOMEM);
  tell('r', more == NULL, ENOMEM);
  tell('c', calloc(2, 8) == NULL, ENOMEM);
  tell('a', aligned_alloc(64, 64) == NULL, ENOMEM);
  errno = posix_memalign(&aligned, 64, 64);
  tell('p', errno != 0, ENOMEM);
  for (int place = 1; place < count; place++) {
    int opened = open(words[place], O_RDONLY);
    ssize_t length;
    while ((length = read(opened, octets, sizeof octets)) != 0) {
      tell('f', length < 0, EIO);
      if (length > 0) tell('w', write(1, octets, length) < 0, EIO);
    }
  }
  struct iovec part = {"end", 3};
  tell('v', writev(1, &part, 1) < 0, EIO);
  return early == NULL;
}
"""

# It answers as the program does, for the capture that is the second word behind its subcommand. FLAW is what it does wrong.
ANSWERING = r"""
#include <fcntl.h>
#include <stdlib.h>
#include <string.h>
#include <unistd.h>
#ifndef FLAW
#define FLAW ""
#endif
#define HAS(flaw) (strcmp(FLAW, flaw) == 0)
static int end(const char *line) { return write(2, line, strlen(line)) < 0 ? 1 : 1; }
int main(int count, char **words) {
  const char *text = "the answer\n";
  char octets[64];
  if (HAS("tells before") && write(1, text, 3) != 3) return 1;
  char *given = malloc(8);
  if (HAS("crashes")) *(volatile char *)given = 1;
  if (HAS("goes on") && !given) text = "another\n";
  else if (!given) return end(HAS("wrong line") ? "fault 9\n" : "fault 90\n");
  int opened = open(words[count - 1], O_RDONLY);
  ssize_t length;
  while ((length = read(opened, octets, sizeof octets)) != 0)
    if (length < 0 && !HAS("reads on")) return end("fault 210 capture\n");
    else if (length < 0) break;
  while (*text) {
    length = write(1, text, strlen(text));
    if (length <= 0 && !HAS("writes on")) return end("fault 812\n");
    text += length > 0 ? length : 1;
  }
  return 0;
}
"""

# It tells two texts as the program does of many questions, and asks for memory before each.
ANSWERING_MANY = r"""
#include <stdlib.h>
#include <string.h>
#include <unistd.h>
#ifndef FLAW
#define FLAW ""
#endif
static int told(int stream, const char *text) { return write(stream, text, strlen(text)) < 0; }
int main(void) {
  const char *texts[] = {"refused 701 . 43\n", "SecureAnswer a. 1\nrrset 1 signature 1\n"};
  for (int place = 0; place < 2; place++) {
    char *given = malloc(8);
    if (!given && place && strcmp(FLAW, "tells a half") == 0) told(1, "SecureAnswer a. 1\n");
    if (!given) { told(2, "fault 90\n"); return 1; }
    *(volatile char *)given = 1;
    if (told(1, texts[place])) return 1;
  }
  return 7;
}
"""


@unittest.skipUnless(shutil.which("cc"), "needs cc")
class Programs(unittest.TestCase):
    """A folder with the library, and the programs that a test builds."""

    @classmethod
    def setUpClass(cls):
        folder = tempfile.TemporaryDirectory()
        cls.addClassCleanup(folder.cleanup)
        cls.room = pathlib.Path(folder.name)
        cls.library = built(cls.room)

    def program(self, text, flaw=""):
        path = self.room / (f"program {flaw}".strip())
        if not path.exists():
            words = ["cc", "-w", "-x", "c", f'-DFLAW="{flaw}"', "-o", str(path), "-"]
            subprocess.run(words, input=text.encode(), check=True)
        return path

    def bench(self, program):
        bench = Bench(Tried(program, self.library))
        self.addCleanup(bench.folder.cleanup)
        return bench

    def case(self, output=b"the answer\n"):
        """A case whose capture has 10 octets."""
        folder = self.room / "small"
        folder.mkdir(exist_ok=True)
        files = {"commands": b"0 show --capture capture\n", "capture": b"0123456789", "show.stdout": output}
        for name, octets in files.items():
            (folder / name).write_bytes(octets)
        example, = examples_of(folder)
        return Case(example)

    def script(self, text):
        """A program for bash."""
        path = self.room / "script"
        path.write_text("#!/bin/bash\n" + text)
        path.chmod(0o755)
        return Tried(path, None)
