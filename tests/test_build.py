"""What `./nfscopy` does before there is a program: it tries it, proves it, builds it, and says which. A stand-in for `rt` takes no time."""

import os
import shutil
import signal
import subprocess
import tempfile
import time
import unittest

from support.program import PATIENCE, TOP

# It notes what it is asked for. `ci` builds a program that prints its words, once the file `go` is there; `try` is a trial.
RT = """#!/bin/sh
echo "$1" >>"$NOTES/asked"
case $1 in
help) echo "What a run passed is kept beside the kit" >&2 ;;
try)
  echo "a trial over $(cat)"
  echo "checked: ended status=7" >&2
  [ -e "$NOTES/mute" ] || echo "run=ended status=7 runners=1 races=unchecked proved=no" >&2
  exit 2 ;;
ci)
  echo "rt: low is kept: an earlier run on this machine proved the same files"
  while [ -d "$NOTES" ] && ! [ -e "$NOTES/go" ]; do sleep 0.05; done
  [ -e "$NOTES/fail" ] && { echo "rt: nfscopy_main NOT PROVED"; exit 1; }
  mkdir -p crates/nfscopy_main/out
  cat crates/nfscopy_main/src/main.rt >crates/nfscopy_main/out/nfscopy_main
  chmod +x crates/nfscopy_main/out/nfscopy_main
  echo "rt: nfscopy_main proved" ;;
esac
"""


def end(child):
    """Ends a command that goes on, and what it started but for `rt`, which ends with the folder of its notes."""
    if child.poll() is None:
        os.killpg(child.pid, signal.SIGKILL)
    child.communicate()


class Build(unittest.TestCase):
    def setUp(self):
        self.folder = tempfile.mkdtemp(prefix="nfscopy tests ")
        self.addCleanup(shutil.rmtree, self.folder, ignore_errors=True)
        self.top = os.path.join(self.folder, "a checkout")
        for name in ("low", "nfscopy_main"):
            os.makedirs(f"{self.top}/crates/{name}/src")
        os.mkdir(f"{self.top}/tools")
        for file in ("nfscopy", "HANDLES", "tools/build.py"):
            shutil.copy(f"{TOP}/{file}", f"{self.top}/{file}")
        for part in ("stdin", "stdout", "args"):
            self.write(f"crates/nfscopy_main/{part}", "")
        self.write("crates.txt", "low:\nhigh: nfscopy_main\nnfscopy_main: low outcome # the program\n")
        self.write("crates/low/src/lib.rt", "// nothing\n")
        self.sources("#!/bin/sh\necho the program: $*\n")
        os.mkdir(f"{self.folder}/bin")
        with open(f"{self.folder}/bin/rt", "w", encoding="utf-8") as text:
            text.write(RT)
        os.chmod(f"{self.folder}/bin/rt", 0o755)
        self.note("go")
        self.heard = 0

    def write(self, file, text):
        with open(f"{self.top}/{file}", "w", encoding="utf-8") as it:
            it.write(text)

    def sources(self, text):
        """Gives the program's only source, which the stand-in copies, another text."""
        self.write("crates/nfscopy_main/src/main.rt", text)

    def note(self, name):
        with open(f"{self.folder}/{name}", "w", encoding="utf-8"):
            pass

    def asked(self):
        """What the stand-in was asked for since the last call."""
        if not os.path.exists(f"{self.folder}/asked"):
            return []
        with open(f"{self.folder}/asked", encoding="utf-8") as text:
            asked = text.read().split()
        self.heard, asked = len(asked), asked[self.heard :]
        return [it for it in asked if it != "help"]

    def start(self, *words, rt=True):
        path = [f"{self.folder}/bin"] * rt + [it for it in os.environ["PATH"].split(":") if not os.path.exists(f"{it}/rt")]
        given = {**os.environ, "PATH": ":".join(path), "TMPDIR": self.folder, "NOTES": self.folder}
        how = {"stdin": subprocess.PIPE, "stdout": subprocess.PIPE, "stderr": subprocess.PIPE, "text": True}
        child = subprocess.Popen([f"{self.top}/nfscopy", *words], env=given, start_new_session=True, **how)
        self.addCleanup(end, child)
        return child

    def run_to_end(self, *words, text="", rt=True):
        child = self.start(*words, rt=rt)
        printed, errors = child.communicate(text, timeout=PATIENCE)
        return child.returncode, printed, errors

    def wait_for(self, holds, what):
        deadline = time.monotonic() + PATIENCE
        while not holds():
            self.assertLess(time.monotonic(), deadline, what)
            time.sleep(0.02)

    def rooms(self):
        """What lies in the folder that is built in, but for its lock and log."""
        return [it for at in os.listdir(self.folder) if at.startswith("nfscopy-") for it in os.listdir(f"{self.folder}/{at}")
                if it not in ("lock", "log")]

    def test_a_trial_answers_where_nothing_was_built(self):
        for words in (["run"], ["show"], ["gen", "1"], ["no", "command"]):
            status, printed, errors = self.run_to_end(*words, text="some input")
            self.assertEqual((status, printed), (7, "a trial over some input\n"))
            self.assertIn("unproved trial", errors)
            self.assertIn("./nfscopy prove", errors)
            self.assertEqual(self.asked(), ["try"])

    def test_a_trial_that_gives_no_answer(self):
        self.note("mute")
        status, _, errors = self.run_to_end("run")
        self.assertEqual(status, 70)
        self.assertIn("gave no answer", errors)

    def test_what_touches_files_or_ports_is_proved_first(self):
        for word in ("format", "serve-source", "serve-dest", "copy"):
            shutil.rmtree(f"{self.top}/crates/nfscopy_main/out", ignore_errors=True)
            status, printed, errors = self.run_to_end(word, "x")
            self.assertEqual((status, printed), (0, f"the program: {word} x\n"), errors)
            self.assertEqual(self.asked(), ["ci"])

    def test_a_program_that_is_proved_needs_no_rt(self):
        status, printed, errors = self.run_to_end("prove")
        self.assertEqual((status, printed), (0, ""))
        self.assertIn("proves the 2 crates of the program, 3 lines", errors)
        self.assertIn("2 of 2 crates", errors)
        self.assertIn("1 were kept", errors)
        self.assertEqual(self.run_to_end("run", rt=False), (0, "the program: run\n", ""))
        self.assertEqual(self.asked(), ["ci"])
        self.assertEqual(self.rooms(), [])

    def test_a_program_of_the_gate_is_taken(self):
        os.mkdir(f"{self.top}/crates/nfscopy_main/out")
        self.write("crates/nfscopy_main/out/nfscopy_main", "#!/bin/sh\necho the program of the gate\n")
        os.chmod(f"{self.top}/crates/nfscopy_main/out/nfscopy_main", 0o755)
        self.assertEqual(self.run_to_end("run", rt=False), (0, "the program of the gate\n", ""))

    def test_changed_sources_are_built_anew(self):
        self.run_to_end("prove")
        self.sources("#!/bin/sh\necho another program: $*\n")
        self.assertEqual(self.run_to_end("run")[:2], (0, "another program: run\n"))
        self.assertEqual(self.asked(), ["ci", "ci"])

    def test_sources_that_were_only_touched_are_not(self):
        self.run_to_end("prove")
        os.utime(f"{self.top}/crates/low/src/lib.rt")
        self.assertEqual(self.run_to_end("run"), (0, "the program: run\n", ""))
        self.assertEqual(self.asked(), ["ci"])

    def test_what_is_not_proved_is_not_run(self):
        self.note("fail")
        status, printed, errors = self.run_to_end("copy")
        self.assertEqual((status, printed), (70, ""))
        self.assertIn("rt: nfscopy_main NOT PROVED", errors)
        self.assertFalse(os.path.exists(f"{self.top}/crates/nfscopy_main/out/nfscopy_main"))

    def test_without_rt_it_says_what_to_install(self):
        for words in (["run"], ["prove"], ["copy"]):
            status, printed, errors = self.run_to_end(*words, rt=False)
            self.assertEqual((status, printed), (70, ""))
            self.assertIn("part of a Rattle kit", errors)

    def test_an_interrupted_build_ends_what_it_started(self):
        for number in (signal.SIGINT, signal.SIGTERM, signal.SIGHUP):
            os.remove(f"{self.folder}/go")
            child = self.start("prove")
            self.wait_for(lambda: "ci" in self.asked(), "rt ci isn't started")
            os.killpg(child.pid, number)
            _, errors = child.communicate(timeout=PATIENCE)
            self.assertIn("interrupted", errors)
            self.assertEqual(self.rooms(), [])
            self.note("go")
            self.assertEqual(self.asked(), [])
        self.assertEqual(self.run_to_end("prove")[0], 0)

    def test_a_build_waits_for_one_that_was_killed(self):
        os.remove(f"{self.folder}/go")
        child = self.start("prove")
        self.wait_for(lambda: "ci" in self.asked(), "rt ci isn't started")
        os.killpg(child.pid, signal.SIGKILL)
        child.communicate(timeout=PATIENCE)
        second = self.start("prove")
        self.assertIn("waits for another build", second.stderr.readline())
        self.note("go")
        second.communicate(timeout=PATIENCE)
        self.assertEqual(second.returncode, 0)
        self.assertEqual(self.run_to_end("run", rt=False)[1], "the program: run\n")
