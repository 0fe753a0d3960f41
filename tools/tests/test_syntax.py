"""The tools run with Python 3.9 and the standard library; what needs a package more, or another part, is told here."""
import ast
import sys
import unittest

from tool import PACKAGE, TOOLS

SCRIPTS = (
    "pages", "faults", "examples", "as-json", "cases.py", "check", "packages", "lint", "does-not-compile", "wrong-bodies",
    "fuzz", "incidents", "odd-captures"
)
FOLDERS = (PACKAGE, *(TOOLS / name for name in ("failing", "as_json", "checking", "wrong_bodies", "fuzzing", "breaking", "odd_captures")))
NAMES = [*SCRIPTS, *(str(path.relative_to(TOOLS)) for folder in FOLDERS for path in sorted(folder.rglob("*.py")))]
# What each part imports besides itself; dnspython (`dns`), distributed and rich only where they're needed.
PARTS = {
    "pages": {"dnssec_check_tools"},
    "faults": {"cases", "dnssec_check_tools", "failing"},
    "failing": {"cases", "dnssec_check_tools", "messages", "zones"},  # the last two of rows
    "incidents": {"breaking", "dnssec_check_tools"},
    "breaking": {"dns"},
    "odd-captures": {"breaking", "dnssec_check_tools", "odd_captures"},
    "odd_captures": {"breaking", "cryptography", "dns", "dnssec_check_tools"},
    "fuzz": {"dnssec_check_tools", "fuzzing"},
    "fuzzing": {"dnssec_check_tools"},
    "fuzzing/targets": {"cryptography", "dns", "dnssec_check_tools"},
    "examples": {"cases", "dnssec_check_tools"},
    "as-json": {"as_json", "cases", "dnssec_check_tools"},
    "as_json": {"as_json"},
    "check": {"checking", "dnssec_check_tools"},
    "packages": {"checking", "dnssec_check_tools"},
    "lint": {"dnssec_check_tools"},
    "does-not-compile": {"dnssec_check_tools", "wrong_bodies"},
    "wrong-bodies": {"dnssec_check_tools", "wrong_bodies"},
    "dnssec_check_tools/verify.py": {"asking", "command", "outputs", "verifying"},
    "dnssec_check_tools/capture.py": {"command", "capturing", "outputs"},
    "dnssec_check_tools/judge.py": {
        *("command", "asking", "in_process", "judge_options", "judging", "odd", "outputs", "program", "resuming"),
        *("started", "timelines", "verifying", "zones"),
    },
    "dnssec_check_tools/judge_options.py": {"command", "asking", "judging", "odd", "program", "timelines", "verifying", "zones"},
    "dnssec_check_tools/command.py": {"outputs"},
    "dnssec_check_tools/program.py": {"asked", "asking", "listed", "started"},
    "dnssec_check_tools/in_process.py": {"asked", "asking", "command", "listed", "program"},
    "dnssec_check_tools/asked.py": {"asking", "listed", "started"},
    "dnssec_check_tools/listed.py": {"asking", "started"},
    "dnssec_check_tools/verifying/curves.py": {"cryptography"},
    "dnssec_check_tools/capturing": {"command"},
    "dnssec_check_tools/capturing/notes.py": {"asking"},
    "dnssec_check_tools/capturing/dnstap.py": {"asking", "google"},
    "dnssec_check_tools/capturing/printed.py": {"asking", "dns", "wire"},
    "dnssec_check_tools/asking": {"command", "capturing", "dns"},
    "dnssec_check_tools/explaining": {"asking"},
    "dnssec_check_tools/explaining/page.py": {"asking", "jinja2", "markupsafe"},
    "dnssec_check_tools/explaining/picture.py": {"asking", "started"},
    "dnssec_check_tools/wire.py": {"dns"},
    "dnssec_check_tools/judging": {
        *("asked", "asking", "capturing", "explaining", "listed", "odd", "program", "started", "timelines", "verifying", "dns"),
    },
    "dnssec_check_tools/timelines": {
        *("asked", "asking", "capturing", "explaining", "judging", "listed", "program", "started", "verifying"),
    },
    "dnssec_check_tools/resuming": {"asking", "judging", "program"},
    "dnssec_check_tools/odd": {"capturing", "explaining", "judging", "zones"},
    "dnssec_check_tools/zones": {"asking", "capturing", "command", "dns", "explaining", "judging", "odd", "program"},
    "dnssec_check_tools/judging/report.py": {"asking", "command", "program"},
    "dnssec_check_tools/judging/cluster.py": {"asking", "distributed", "program"},
    "dnssec_check_tools/judging/workers.py": {"command", "program"},
    "dnssec_check_tools/judging/progress.py": {"rich"},
}


def modules_of(node, depth):
    """What an import names, from the top of the package on; nothing where it is of the folder of the module itself."""
    if isinstance(node, ast.Import):
        return [alias.name for alias in node.names]
    if isinstance(node, ast.ImportFrom) and (not node.level or node.level == depth):
        return [node.module] if node.module else [alias.name for alias in node.names]
    return []


def imported(name):
    """The packages that a module imports, and the parts of the package besides its own."""
    tree, depth = ast.parse((TOOLS / name).read_text()), name.count("/") if name.startswith(PACKAGE.name) else None
    return {each.split(".")[0] for node in ast.walk(tree) for each in modules_of(node, depth)}


def allowed(name):
    """The words of the module itself, else those of the folder that it's in."""
    return PARTS.get(name, PARTS.get(name.rpartition("/")[0], set()))


class Syntax(unittest.TestCase):
    def test_each_tool_has_the_syntax_of_python_3_9(self):
        for name in NAMES:
            with self.subTest(name):
                ast.parse((TOOLS / name).read_text(), feature_version=(3, 9))

    @unittest.skipUnless(hasattr(sys, "stdlib_module_names"), "needs Python 3.10")
    def test_each_tool_imports_nothing_else(self):
        for name in NAMES:
            with self.subTest(name):
                self.assertLessEqual(imported(name) - sys.stdlib_module_names, allowed(name))


if __name__ == "__main__":
    unittest.main()
