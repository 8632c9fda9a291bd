"""Holds docs/PROMISES.md, the header and the crates to each other: no public call is left out, and no edit is named that is not there."""
import os
import pathlib
import re
import subprocess
import tempfile
import unittest

ROOT = pathlib.Path(__file__).resolve().parent.parent
LEDGER = (ROOT / "docs" / "PROMISES.md").read_text(encoding="utf-8")
# Of what these read no contract can say which bytes it is; the ledger tells so in its head.
NO_ROW = {("recorded", "read_input")}
# What docs/DIFFERENCES.md and docs/DECISIONS.md say of the Rust that the port leaves out.
RUST_LEFT_OUT = {"dot_product_non_optimized", "euclidean_distance", "iter_results", "load_all_bitmaps", "print_basis", "subtract_into"}


def listed_crates():
    for line in (ROOT / "crates.txt").read_text(encoding="utf-8").splitlines():
        line = line.split("#")[0].strip()
        if line:
            yield line.split(":")[0]


def edit_files(*folders):
    for crate in listed_crates():
        for folder in folders:
            yield from sorted((ROOT / "crates" / crate / folder).glob("*.edit"))


def edits(*folders):
    """The names of the wrong answers tried: by the gate (must-fail), by tools/tried (tried), or by both."""
    return {path.stem for path in edit_files(*(folders or ("must-fail", "tried")))}


def public_calls():
    """Every `pub` function of a library outside a module `inner`, as (crate, name)."""
    for crate in listed_crates():
        for source in sorted((ROOT / "crates" / crate / "src").glob("*.rt")):
            if source.name not in ("inner.rt", "main.rt"):
                for name in re.findall(r'^\s*pub (?:extern "C" )?fn (\w+)', source.read_text(encoding="utf-8"), re.M):
                    if (crate, name) not in NO_ROW:
                        yield crate, name


def rows():
    """The rows of the ledger's tables of calls: the call's name, and the edits named in the last column."""
    for line in LEDGER.splitlines():
        cells = [cell.strip() for cell in line.strip().strip("|").split(" | ")]
        call = re.match(r"`(?:\w+::)*(\w+)`", cells[0])
        if line.startswith("| `") and call and len(cells) == 5:
            yield call.group(1), re.findall(r"\w+(?:-\w+)?", cells[4])


def laws():
    """The fields of each crate's record Laws, as {crate: [field]}."""
    told = {}
    for crate in listed_crates():
        for specs in (ROOT / "crates" / crate / "specs").glob("*.antt"):
            record = re.search(r"^pub record Laws .*?(?=^\S|\Z)", specs.read_text(encoding="utf-8"), re.M | re.S)
            if record:
                told[crate] = re.findall(r"^  pub ([\w'-]+) :", record.group(), re.M)
    return told


def source_files(folder, ends):
    for crate in listed_crates():
        yield from sorted((ROOT / "crates" / crate / folder).glob(f"*{ends}"))


def functions():
    """The functions and modules of src/."""
    return {name for path in source_files("src", ".rt") for name in re.findall(r"\b(?:fn|mod) (\w+)", path.read_text(encoding="utf-8"))}


def definitions():
    """The words that specs/ defines, but for fields."""
    return {name for path in source_files("specs", ".antt") for name in re.findall(r"^ *(?:abbrev|unfoldable) pub ([\w']+) :", path.read_text(encoding="utf-8"), re.M)}


def law_rows():
    """What the ledger's rows of laws name, as {crate: [field]}."""
    return {crate: re.findall(r"`([\w'-]+)`", cells) for crate, cells in re.findall(r"^\| `(\w+)::laws` \|(.*?)\| `Laws` \|", LEDGER, re.M)}


class Laws(unittest.TestCase):
    def test_every_record_is_claimed(self):
        """By a function of its crate whose `ensures` is the record, and that has no `requires`."""
        for crate in laws():
            with self.subTest(crate=crate):
                source = (ROOT / "crates" / crate / "src" / "lib.rt").read_text(encoding="utf-8")
                self.assertRegex(source, r"pub fn laws\(\)\s*ensures \{ Laws \}\s*\{\s*\}")

    def test_the_ledger_names_every_law_and_no_other(self):
        self.assertEqual({crate: sorted(fields) for crate, fields in laws().items()}, {crate: sorted(fields) for crate, fields in law_rows().items()})

    def test_names_that_documents_give_to_laws_are_fields(self):
        """A name in backquotes with an underscore and no other mark, in a page of the auditor's, is a law, if it is no function, definition or crate. No law has the name of
        one of those, so a law that a page names cannot go unseen."""
        there = {field for fields in laws().values() for field in fields}
        others = functions() | definitions() | set(listed_crates())
        self.assertEqual(set(), there & others)
        for page in ("PROMISES.md", "RULES.md", "DECISIONS.md", "DIFFERENCES.md"):
            text = (ROOT / "docs" / page).read_text(encoding="utf-8")
            with self.subTest(page=page):
                self.assertEqual([], sorted(set(re.findall(r"`([a-z]\w*_\w+)`", text)) - there - others - RUST_LEFT_OUT))

    def test_names_are_in_snake_case(self):
        """tools/port-names finds no word of specs/ and proofs/ that is not."""
        done = subprocess.run([ROOT / "tools" / "port-names", "--list"], capture_output=True, text=True)
        self.assertEqual((0, "", ""), (done.returncode, done.stdout, done.stderr))


class Ledger(unittest.TestCase):
    def test_every_public_call_has_a_row(self):
        told = {name for name, _ in rows()}
        self.assertEqual([], [f"{crate}::{name}" for crate, name in public_calls() if name not in told])

    def test_every_row_names_two_edits_one_of_them_in_the_gate(self):
        there, gate = edits(), edits("must-fail")
        for name, words in rows():
            with self.subTest(call=name):
                self.assertGreaterEqual(len({word for word in words if word in there}), 2)
                self.assertGreaterEqual(len({word for word in words if word in gate}), 1)

    def test_every_edit_is_in_the_ledger(self):
        words = set(re.findall(r"\w+(?:-\w+)?", LEDGER))
        self.assertEqual([], sorted(edits() - words))

    def test_the_gate_stays_short(self):
        self.assertLessEqual(len(list(edit_files("must-fail"))), 150)

    def test_no_edit_stands_in_both_folders(self):
        for crate in listed_crates():
            names = [{p.name for p in (ROOT / "crates" / crate / folder).glob("*.edit")} for folder in ("must-fail", "tried")]
            self.assertEqual(set(), names[0] & names[1], crate)

    def test_every_edit_applies(self):
        """As rt reads it: each `old:` text stands just once in the file named before it, and some pair is there."""
        for path in edit_files("must-fail", "tried"):
            with self.subTest(edit=str(path.relative_to(ROOT))):
                file, text, pairs = None, None, 0
                for line in path.read_text(encoding="utf-8").splitlines():
                    if line.startswith("file: "):
                        file, text = line[6:], (path.parent.parent / line[6:]).read_text(encoding="utf-8")
                        self.assertRegex(file, r"^(src|specs)/")
                    elif line.startswith("old: "):
                        old = line[5:]
                        self.assertEqual(1, text.count(old), old)
                    elif line.startswith("new:"):
                        text = text.replace(old, line[4:].removeprefix(" "))
                        pairs += 1
                self.assertGreaterEqual(pairs, 1)

    def test_every_edit_of_the_ledger_exists(self):
        there = edits()
        named = {word for word in re.findall(r"\b[a-z]\w*-\w+", LEDGER) if "_" in word.split("-")[1]}
        self.assertEqual([], sorted(named - there))


class Header(unittest.TestCase):
    def test_declares_just_the_exports(self):
        header = (ROOT / "c" / "bbqvec.h").read_text(encoding="utf-8")
        declared = set(re.findall(r"^\w+ (bbq_\w+)\(", header, re.M))
        exported = {name for crate, name in public_calls() if crate.startswith("capi_")}
        self.assertEqual(exported, declared)


class Library(unittest.TestCase):
    def run_it(self, *words):
        return subprocess.run([ROOT / "tools" / "library", *words], cwd=ROOT, capture_output=True, text=True)

    def test_wrong_use_is_told(self):
        for words in ([], ["one.o", "two.o"], ["port.so"]):
            with self.subTest(words=words):
                done = self.run_it(*words)
                self.assertEqual(2, done.returncode)
                self.assertEqual(1, len(done.stderr.splitlines()))

    def test_names_every_crate_of_calls(self):
        text = (ROOT / "tools" / "library").read_text(encoding="utf-8")
        joined = re.findall(r"'(\w+)'", re.search(r"^CRATES = \[(.*)\]", text, re.M).group(1))
        self.assertEqual(sorted(c for c in listed_crates() if c.startswith("capi_")), sorted(joined))


class Gate(unittest.TestCase):
    """.ci/run, with a made-up rt that says what the true one would."""

    def run_it(self, line, status):
        with tempfile.TemporaryDirectory() as room:
            rt = pathlib.Path(room) / "rt"
            rt.write_text(f"#!/bin/sh\n[ \"$*\" = ci ] || exit 9\necho '{line}'\necho '3 passed, 0 failed'\nexit {status}\n", encoding="utf-8")
            rt.chmod(0o755)
            return subprocess.run([ROOT / ".ci" / "run"], capture_output=True, text=True, env={**os.environ, "PATH": f"{room}:{os.environ['PATH']}"})

    def test_passes_where_rt_ci_passes(self):
        done = self.run_it("rt: ok; handles allowed: none; must-fail edits: 2 refused; every proof was done in this run", 0)
        self.assertEqual((0, "3 passed, 0 failed"), (done.returncode, done.stdout.splitlines()[-1]))

    def test_fails_where_rt_ci_fails(self):
        self.assertEqual(1, self.run_it("rt: paper NOT PROVED", 1).returncode)

    def test_fails_where_an_edit_is_bad(self):
        done = self.run_it("rt: ok; handles allowed: none; must-fail edits: 1 refused, 1 bad; every proof was done in this run", 0)
        self.assertEqual(1, done.returncode)
        self.assertIn("bad", done.stderr)


class GateTable(unittest.TestCase):
    def test_wrong_use_is_told(self):
        done = subprocess.run([ROOT / "tools" / "gate-table", "paper", "nothing"], capture_output=True, text=True)
        self.assertEqual((2, "", "gate-table: there is no crate nothing\n"), (done.returncode, done.stdout, done.stderr))

    def test_measures_and_adds_up(self):
        """With a made-up toolchain that proves at once."""
        with tempfile.TemporaryDirectory() as room:
            for name in ("rt", "bin/rattle"):
                program = pathlib.Path(room) / name
                program.parent.mkdir(exist_ok=True)
                program.write_text(f"#!/bin/sh\n[ \"$1\" != doc ] || echo {room}/GUIDE.md\n", encoding="utf-8")
                program.chmod(0o755)
            env = {**os.environ, "PATH": f"{room}:{os.environ['PATH']}"}
            done = subprocess.run([ROOT / "tools" / "gate-table", "paper", "sqrt"], capture_output=True, text=True, env=env)
        counts = {crate: [len(list((ROOT / "crates" / crate / folder).glob("*.edit"))) for folder in ("must-fail", "tried")] for crate in ("paper", "sqrt")}
        rows = [re.findall(r"[^|]+", line) for line in done.stdout.splitlines()[2:]]
        for row in rows[:2]:
            self.assertEqual(counts[row[0].strip()], [int(row[2]), int(row[4])])
        self.assertEqual(("in all (2 crates)", sum(it[0] for it in counts.values())), (rows[2][0].strip(), int(rows[2][2])))


class Tried(unittest.TestCase):
    """tools/tried, with a made-up rt that says what the true one would."""

    def run_it(self, *words, said=""):
        with tempfile.TemporaryDirectory() as room:
            rt = pathlib.Path(room) / "rt"
            asked = pathlib.Path(room) / "asked"
            rt.write_text(f"#!/bin/sh\nls crates/*/must-fail/*.edit >&2\necho \"$*\" > {asked}\ncat <<'SAID'\n{said}\nSAID\n", encoding="utf-8")
            rt.chmod(0o755)
            done = subprocess.run([ROOT / "tools" / "tried", *words], capture_output=True, text=True, env={**os.environ, "PATH": f"{room}:{os.environ['PATH']}"})
            done.asked = asked.read_text(encoding="utf-8").strip() if asked.exists() else None
            return done

    def test_wrong_use_is_told(self):
        for words in (["nothing"], ["--all"], ["search"]):
            with self.subTest(words=words):
                done = self.run_it(*words)
                self.assertEqual((2, ""), (done.returncode, done.stdout))
                self.assertEqual(1, len(done.stderr.splitlines()))

    def test_only_the_named_crates_edits_are_tried(self):
        names = sorted(p.stem for p in (ROOT / "crates" / "ortho" / "tried").glob("*.edit"))
        said = "\n".join(f"rt: must-fail ortho/{name}.edit: refused, as it must be: ./src/lib.rt:1:1: error: `returns`" for name in names)
        done = self.run_it("--from-nothing", "ortho", said=said)
        self.assertEqual([f"crates/ortho/must-fail/{name}.edit" for name in names], done.stderr.split())
        self.assertEqual("must-fail --anew ortho", done.asked)
        self.assertEqual("must-fail ortho", self.run_it("ortho", said=said).asked)
        self.assertEqual((0, f"{len(names)} passed, 0 failed"), (done.returncode, done.stdout.splitlines()[-1]))

    def test_an_edit_that_is_not_refused_fails(self):
        names = sorted(p.stem for p in (ROOT / "crates" / "ortho" / "tried").glob("*.edit"))
        said = "\n".join(f"rt: must-fail ortho/{name}.edit: refused, as it must be" for name in names[1:]) + f"\nrt: must-fail ortho/{names[0]}.edit: NOT REFUSED: the crate is still proved"
        done = self.run_it("--from-nothing", "ortho", said=said)
        self.assertEqual((1, f"{len(names) - 1} passed, 1 failed"), (done.returncode, done.stdout.splitlines()[-1]))


if __name__ == "__main__":
    unittest.main()
