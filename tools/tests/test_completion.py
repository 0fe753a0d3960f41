"""Tests of the completions of bash, zsh and fish: what is offered for a beginning of a command line."""
import pathlib
import re
import shutil
import subprocess
import unittest

from tool import PROGRAM, TOOLS, run_program

COMPLETIONS = TOOLS / "completion"
MANUAL = TOOLS.parent / "docs" / "dnssec_check.1"
# As bash does it: the function that `complete -p` names gets the command, the word and the word before it.
OF_BASH = """
. "$1"/dnssec_check; shift
function=$(complete -p "$1" | sed 's/.* -F \\([^ ]*\\) .*/\\1/')
COMP_WORDS=("$@") COMP_CWORD=$(($# - 1))
"$function" "$1" "${COMP_WORDS[COMP_CWORD]}" "${COMP_WORDS[COMP_CWORD - 1]}"
for each in "${COMPREPLY[@]}"; do printf '%s\\n' "$each"; done
"""
# A zsh at a terminal gets the line and a tab; `compadd`, by which all is offered, prints it.
OF_ZSH = """
zmodload zsh/zpty
zpty inner zsh -f -i
zpty -w inner "PROMPT=; stty -echo -onlcr; fpath=($1 \\$fpath); autoload -Uz compinit; compinit -u -D"
zpty -w inner 'compadd() {
  [[ ${@[1,(i)(-|--)]} == *-(O|A|D)\\ * ]] && { builtin compadd "$@"; return }
  local -a found; builtin compadd -A found "$@"
  (( $#found )) && print -l -- OFFERED:${^found}
  builtin compadd "$@"
}
begins() { print BEGINS: }
ends() { print ENDS:; compstate[list]= compstate[insert]= }
compprefuncs=(begins) comppostfuncs=(ends)
bindkey "^I" complete-word; print READY:'
local text= line
while zpty -r inner line "*READY:"$'\\n'"*"; do break; done
zpty -n -w inner "${(j: :)@[2,-1]}"$'\\t'
while [[ $text != *ENDS:* ]] && zpty -r inner line; do text+=$line; done
zpty -d inner
for line in ${(f)text//$'\\r'}; do [[ $line == OFFERED:* ]] && print -r -- ${line#OFFERED:}; done
true
"""
OF_FISH = "source $argv[1]/dnssec_check.fish; complete -C (string join ' ' -- $argv[2..])"


def printed(shell, *options):
    """The lines that a shell prints, without what they say behind a tab."""
    done = subprocess.run([shell, *map(str, options)], check=True, capture_output=True, text=True, timeout=60)
    if done.stderr:
        raise AssertionError(done.stderr)
    return [line.split("\t")[0] for line in done.stdout.splitlines()]


def offered(*words):
    """What bash offers for the last word."""
    return printed("bash", "--norc", "-c", OF_BASH, "bash", COMPLETIONS, *words)


def by_zsh(*words):
    return printed("zsh", "-f", "-c", OF_ZSH, "zsh", COMPLETIONS, *words)


def by_fish(*words):
    return printed("fish", "--no-config", "-c", OF_FISH, COMPLETIONS, *words)


def types_of_the_manual_page():
    page = MANUAL.read_text().split(".Sh TYPES")[1].split(".Sh")[0]
    return re.findall(r"^\.It [A-Z0-9]+ Ta (\d+) Ta ", page, re.MULTILINE)


def options_of(path, *words):
    """The options that a command's own help names."""
    status, output, _ = run_program(path, *words, "--help")
    return set(re.findall(r"^ +(?:-\w, )?(--[a-z-]+)", output.decode(), re.MULTILINE)) if status == 0 else None


@unittest.skipUnless(shutil.which("bash"), "needs bash")
class Bash(unittest.TestCase):
    def test_subcommands_and_options(self):
        self.assertEqual(offered("dnssec_check", ""), ["show", "list", "check", "explain", "timeline", "--help", "--version"])
        self.assertEqual(offered("dnssec_check", "ch"), ["check"])
        self.assertEqual(offered("dnssec_check", "show", "--c"), ["--capture"])
        self.assertEqual(offered("dnssec_check", "check", "--capture", "x", "--ma"), ["--macs"])
        self.assertEqual(offered("dnssec_check-capture", "--p"), ["--pcap", "--port"])
        self.assertEqual(offered("dnssec_check-verify", "--v"), ["--version"])

    def test_types_are_those_of_the_manual_page(self):
        types = types_of_the_manual_page()
        self.assertEqual(len(types), 20)
        self.assertEqual(offered("dnssec_check", "check", "--type", ""), types)
        self.assertEqual(offered("dnssec_check", "check", "--type", "=", "25"), ["257"])
        self.assertEqual(offered("dnssec_check", "check", "--type", "="), types)

    def test_moments(self):
        moment, = offered("dnssec_check", "list", "--moment", "")
        self.assertRegex(moment, r"^\d{10,}$")
        for option in ("--at", "--from", "--to"):
            self.assertEqual(offered("dnssec_check-judge", option, "n"), ["now"])
        for words in (("dnssec_check", "timeline"), ("dnssec_check", "list"), ("dnssec_check-verify",)):
            self.assertRegex(offered(*words, "--from", "")[0], r"^\d{10,}$")

    def test_files_and_names_are_left_to_bash(self):
        for words in (["dnssec_check", "show", "--capture", ""], ["dnssec_check", "check", "--name", ""],
                      ["dnssec_check-capture", ""], ["dnssec_check-verify", "to"], ["dnssec_check-judge", "www"]):
            with self.subTest(words):
                self.assertEqual(offered(*words), [])

    def test_every_option_of_the_tools_is_offered(self):
        for name in ("capture", "verify", "judge"):
            with self.subTest(name):
                self.assertEqual(set(offered(f"dnssec_check-{name}", "--")), options_of(TOOLS / name))

    @unittest.skipUnless(PROGRAM.exists(), "needs the built program")
    def test_every_option_of_the_program_is_offered(self):
        for name in ("show", "list", "check", "explain", "timeline"):
            with self.subTest(name):
                self.assertEqual(set(offered("dnssec_check", name, "--")), options_of(PROGRAM, name))


class Others:
    """What zsh and fish offer, by `by`."""

    def by(self, *words):
        raise NotImplementedError

    def test_subcommands_and_options(self):
        self.assertLessEqual({"show", "list", "check", "explain", "timeline"}, set(self.by("dnssec_check", "")))
        for words, wanted in ((("dnssec_check", "ch"), ["check"]), (("dnssec_check", "show", "--c"), ["--capture"]),
                              (("dnssec_check", "check", "--capture", "x", "--ma"), ["--macs"]),
                              (("dnssec_check-capture", "--p"), ["--pcap", "--port"]), (("dnssec_check-verify", "--v"), ["--version"])):
            self.assertEqual(sorted(self.by(*words)), wanted)

    def test_types_are_those_of_the_manual_page(self):
        self.assertEqual(self.by("dnssec_check", "check", "--type", ""), types_of_the_manual_page())
        self.assertEqual(self.by("dnssec_check", "explain", "--type", "25"), ["257"])

    def test_moments(self):
        moment, = self.by("dnssec_check", "list", "--moment", "")
        self.assertRegex(moment, r"^\d{10,}$")
        self.assertEqual(self.by("dnssec_check-judge", "--at", "n"), ["now"])
        self.assertEqual(self.by("dnssec_check-judge", "--to", "n"), ["now"])
        self.assertRegex(self.by("dnssec_check", "timeline", "--to", "")[0], r"^\d{10,}$")
        self.assertRegex(self.by("dnssec_check-judge", "--at", "2")[0], r"^\d{4}-\d\d-\d\dT\d\d:\d\d:\d\dZ$")

    def test_files_are_offered_where_an_option_takes_one(self):
        for words in (("dnssec_check", "show", "--capture"), ("dnssec_check-judge", "--resume"), ("dnssec_check-judge",),
                      ("dnssec_check-capture", "--dig"), ("dnssec_check-verify",)):
            found = self.by(*words, f"{MANUAL.parent}/dnssec_check.")
            self.assertEqual([pathlib.Path(each).name for each in found], [MANUAL.name], words)

    def test_every_option_of_the_tools_is_offered(self):
        for name in ("capture", "verify", "judge"):
            with self.subTest(name):
                self.assertEqual(set(self.by(f"dnssec_check-{name}", "--")), options_of(TOOLS / name))

    @unittest.skipUnless(PROGRAM.exists(), "needs the built program")
    def test_every_option_of_the_program_is_offered(self):
        for name in ("show", "list", "check", "explain", "timeline"):
            with self.subTest(name):
                self.assertEqual(set(self.by("dnssec_check", name, "--")), options_of(PROGRAM, name))


@unittest.skipUnless(shutil.which("zsh"), "needs zsh")
class Zsh(Others, unittest.TestCase):
    def by(self, *words):
        return by_zsh(*words)


@unittest.skipUnless(shutil.which("fish"), "needs fish")
class Fish(Others, unittest.TestCase):
    def by(self, *words):
        return by_fish(*words)


if __name__ == "__main__":
    unittest.main()
