"""Holds the pages that users read to the project: links lead somewhere, refusals have the header's and the wrapper's names, every crate is on the map, no word is
explained twice, and numbers that are quoted are the numbers."""
import pathlib
import re
import unittest
import xml.etree.ElementTree as ET

ROOT = pathlib.Path(__file__).resolve().parent.parent
PAGES = sorted([ROOT / "README.md", ROOT / "CONTRIBUTING.md", ROOT / "CHANGELOG.md", *(ROOT / "docs").glob("*.md")])


def read(*parts):
    return ROOT.joinpath(*parts).read_text(encoding="utf-8")


def outside_code(text):
    """The text without its fenced blocks."""
    return re.sub(r"^```.*?^```", "", text, flags=re.M | re.S)


def anchors(text):
    """The anchors that a page's headings get."""
    for title in re.findall(r"^#+ (.*)", outside_code(text), re.M):
        yield re.sub(r"[^\w\- ]", "", title.lower()).replace(" ", "-")


def section(text, title):
    """What stands below a heading, up to the next one."""
    found = re.search(rf"^## {re.escape(title)}\n(.*?)(?=^## |\Z)", text, re.M | re.S)
    if not found:
        raise AssertionError(f"there is no section {title}")
    return found.group(1)


def rows(text):
    """The cells of each row of the tables in a text, without heads and rules."""
    lines = text.splitlines()
    for at, line in enumerate(lines):
        after = lines[at + 1] if at + 1 < len(lines) else ""
        if line.startswith("|") and not re.match(r"\|[-|]+$", line) and not re.match(r"\|[-|]+$", after):
            yield [cell.strip() for cell in line.strip("|").split("|")]


def listed_crates():
    for line in read("crates.txt").splitlines():
        line = line.split("#")[0].strip()
        if line:
            yield line.split(":")[0]


# What docs/PORT.md names because it is no longer there.
GONE = {"tools/paths", "tools/native"}


class Links(unittest.TestCase):
    def test_links_lead_to_files_and_headings(self):
        seen = 0
        for page in PAGES:
            text = outside_code(page.read_text(encoding="utf-8"))
            for target in re.findall(r"\]\(([^)\s]+)\)", text):
                with self.subTest(page=page.name, link=target):
                    seen += 1
                    self.assertNotRegex(target, r"^[a-z]+:", "a link out of the project")
                    file, _, anchor = target.partition("#")
                    there = (page.parent / file).resolve() if file else page
                    self.assertTrue(there.exists())
                    if anchor:
                        self.assertIn(anchor, list(anchors(there.read_text(encoding="utf-8"))))
        self.assertGreater(seen, 30)

    def test_files_that_are_named_exist(self):
        """Paths below a folder of the project, as docs/SCOPE.md or tools/tried, and pages at its root; but for what a build makes in crates/NAME/out."""
        folders = "|".join(sorted(p.name for p in ROOT.iterdir() if p.is_dir() and not p.name.startswith(".") and p.name != "target"))
        seen = 0
        for page in PAGES:
            for name in re.findall(rf"(?<![\w./-])((?:{folders})/[\w./-]*\w|[A-Z]+\.md)(?![\w/*])", outside_code(page.read_text(encoding="utf-8"))):
                if re.match(r"crates/(NAME|CRATE|\w+/out/)", name) or (page.name == "PORT.md" and name in GONE):
                    continue
                with self.subTest(page=page.name, file=name):
                    seen += 1
                    self.assertTrue((ROOT / name).exists() or (page.parent / name).exists())
        self.assertGreater(seen, 30)

    def test_the_picture_is_shown_and_can_be_read(self):
        self.assertIn("(docs/way.svg)", read("README.md"))
        picture = ET.fromstring(read("docs", "way.svg"))
        first = next(e for e in picture if e.tag.endswith("rect"))
        self.assertEqual(("#ffffff", picture.get("width"), picture.get("height")), (first.get("fill"), first.get("width"), first.get("height")))
        words = " ".join("".join(e.itertext()) for e in picture.iter() if e.tag.endswith("}text"))
        for word in ("projections", "face", "face sets", "n unions", "n layers", "chosen layer", "ranked list"):
            self.assertIn(word, words)


class Refusals(unittest.TestCase):
    def table(self):
        return {int(cells[0]): cells for cells in rows(section(read("docs", "REFUSALS.md"), "The numbers"))}

    def test_every_number_has_a_row_and_a_paragraph(self):
        self.assertEqual(list(range(16)), sorted(self.table()))
        told = [int(n) for n in re.findall(r"^\*\*(\d+), ", section(read("docs", "REFUSALS.md"), "Number by number"), re.M)]
        self.assertEqual(list(range(16)), told)

    def test_the_names_of_c(self):
        enum = re.search(r"enum bbq_refusal \{(.*?)\};", read("c", "bbqvec.h"), re.S).group(1)
        names = {int(number): name for name, number in re.findall(r"(BBQ_\w+) = (\d+)", enum)}
        self.assertGreater(len(names), 10)
        self.assertEqual({n: f"`{names[n]}`" if n in names else "none" for n in range(16)}, {n: cells[2] for n, cells in self.table().items()})

    def test_the_names_of_rust(self):
        source = read("rust", "bbqvec", "src", "refusal.rs")
        names = {int(number): name for name, number in re.findall(r"\bRefusal::(\w+) => (\d+),", source)}
        self.assertEqual(15, len(names))
        self.assertEqual({n: f"`{name}`" for n, name in names.items()}, {n: cells[3] for n, cells in self.table().items() if n})

    def test_the_names_of_rattle(self):
        """The cases of the enum, in their order from 1 on, which is how the language counts them."""
        cases = re.search(r"^pub enum Refusal \{\n(.*?)^\}", read("crates", "paper", "src", "lib.rt"), re.M | re.S).group(1)
        names = re.findall(r"^    (\w+)(?: = 1)?,$", cases, re.M)
        self.assertEqual(1, cases.count("="))
        self.assertEqual(15, len(names))
        self.assertEqual([f"`{name}`" for name in names], [self.table()[number][1] for number in range(1, 16)])

    def test_the_orders_are_those_of_the_scope(self):
        """Where a call stands in both pages, its order of checks is the same; what C adds for places is left out."""
        scope = {cells[0]: cells[1] for cells in rows(re.search(r"3\.2 \*\*Order.*?(?=^3\.3)", read("docs", "SCOPE.md"), re.M | re.S).group(0))}
        here = {cells[0]: cells[-1] for cells in rows(section(read("docs", "REFUSALS.md"), "In which order a call checks"))}
        pairs = {"making an index empty": "make an index empty", "add": "add", "merging two indexes": "merge two indexes", "orthonormalize": "orthonormalise",
                 "normalising": "normalise", "dot product, distance": "dot product, distance", "making a result set": "make a result set",
                 "feeding a result set": "feed a result set", "recall": "recall", "copying out, reading": "copy components out, read them"}
        for theirs, ours in pairs.items():
            with self.subTest(call=ours):
                self.assertEqual(scope[theirs], here[ours])
        for name in ("search", "scan"):
            self.assertEqual(re.findall(r"\d+", scope[name]), re.findall(r"\d+", here[name]))


class Glossary(unittest.TestCase):
    def terms(self):
        return re.findall(r"^- \*\*([^*]+)\*\*: ", read("docs", "GLOSSARY.md"), re.M)

    def test_each_term_stands_once(self):
        self.assertEqual(sorted(set(self.terms())), sorted(self.terms()))

    def test_the_terms_of_the_index_are_there(self):
        wanted = {"basis", "projection", "face", "slot", "face set", "spill", "union", "layer", "chosen layer", "search_k", "candidate", "mark", "geometry", "mode",
                  "stored vector", "score", "checked", "result set", "rule", "refusal", "lent memory", "work memory", "merge"}
        self.assertEqual(set(), wanted - set(self.terms()))

    def test_sections_that_it_cites_exist(self):
        scope = read("docs", "SCOPE.md")
        there = set(re.findall(r"^## (\d+) ", scope, re.M)) | set(re.findall(r"^(\d+\.\d+) ", scope, re.M))
        cited = [n for group in re.findall(r"\[([\d., ]+)\]", read("docs", "GLOSSARY.md")) for n in group.split(", ")]
        self.assertGreater(len(cited), 10)
        self.assertEqual([], [n for n in cited if n not in there])


class Scope(unittest.TestCase):
    def test_examples_and_slips_are_whole(self):
        text = read("docs", "SCOPE.md")
        self.assertEqual([f"P{i}" for i in range(1, 13)], [cells[0] for cells in rows(section(text, "15 Worked examples"))])
        self.assertEqual(5, len(re.findall(r"^\d\. ", section(text, "16 Plausible slips"), re.M)))

    def test_examples_are_those_that_are_proved(self):
        """Every pattern of P1 to P6, and the listing of the program, stand in the crates."""
        proved = read("crates", "worked_examples", "specs", "Examples.antt").replace("_", "").upper()
        for cells in list(rows(section(read("docs", "SCOPE.md"), "15 Worked examples")))[:6]:
            self.assertIn(f"0X{cells[2]} 0X{cells[3]}", proved)
        listing = re.search(r"^```\n(.*?)^```", section(read("docs", "SCOPE.md"), "14 The search program"), re.M | re.S).group(1)
        self.assertEqual(read("crates", "search", "stdout"), listing)

    def test_numbers_of_sections_rise(self):
        text = read("docs", "SCOPE.md")
        heads = [int(n) for n in re.findall(r"^## (\d+) ", text, re.M)]
        self.assertEqual(list(range(1, len(heads) + 1)), heads)
        parts = [tuple(map(int, n.split("."))) for n in re.findall(r"^(\d+\.\d+) ", text, re.M)]
        self.assertEqual(sorted(set(parts)), parts)


class Readme(unittest.TestCase):
    def test_every_crate_is_on_the_map(self):
        named = set(re.findall(r"`(\w+)`", section(read("README.md"), "Map")))
        self.assertEqual([], [crate for crate in listed_crates() if crate not in named])

    def test_the_map_names_no_other_crate(self):
        """What the second column names are crates that exist."""
        there = set(listed_crates())
        for cells in rows(section(read("README.md"), "Map")):
            if not cells[0].startswith("["):
                self.assertEqual([], [name for name in re.findall(r"`(\w+)`", cells[-1]) if name not in there])

    def test_the_first_run_prints_what_it_says(self):
        shown = re.findall(r"^    (\S.*?) {2,}\S", section(read("README.md"), "First run"), re.M)
        self.assertEqual(read("crates", "search", "stdout").splitlines(), shown)

    def test_memory_is_computed(self):
        table = list(rows(section(read("README.md"), "Memory")))
        self.assertGreaterEqual(len(table), 8)
        for cells in table:
            d, n, cap = (int(x.replace(",", "")) for x in cells[0].split(", "))
            mode = int(cells[1])
            self.assertTrue(1 <= d <= 1024 and 1 <= n <= 32 and cap % 64 == 0 and 64 <= cap <= 65536 and mode in (0, 1))
            parts = [4 * n * d * d, n * 2 * d * cap // 8, cap // 8, cap * d * (4, 2)[mode], 4 * d + (n + 1) * cap // 8]
            with self.subTest(geometry=cells[0], mode=mode):
                self.assertEqual([f"{x:,}" for x in (*parts, sum(parts))], cells[2:])

    def test_the_speed_is_the_bench_s(self):
        text = " ".join(section(read("README.md"), "Speed").split())
        geometry = re.search(r"d ([\d,]+), n ([\d,]+), C ([\d,]+), mode (\d)", text)
        times = dict(re.findall(r"(add|search|scan) ([\d.]+ [µm]s)", text))
        self.assertEqual({"add", "search", "scan"}, set(times))
        measured = {}
        for cells in rows(section(read("bench", "RESULTS.md"), "Calls")):
            if cells[0] == ", ".join(geometry.groups()[:3]) and cells[1] == geometry.group(4):
                measured[cells[2]] = cells[3]
        self.assertEqual(measured, times)
        self.assertIn(re.search(r"core of an? ([\w-]+),", text).group(1), read("bench", "RESULTS.md"))

    def test_the_quick_starts_use_names_that_exist(self):
        text = read("README.md")
        c = re.search(r"^```c\n(.*?)^```", text, re.M | re.S).group(1)
        header = read("c", "bbqvec.h") + read("c", "bbqvec_index.h")
        for name in set(re.findall(r"\bbbq_\w+|\bBBQ_\w+", c)):
            self.assertRegex(header, rf"\b{name}\b")
        calls = re.findall(r"\b(bbq_index_\w+)\(([^()]*)\)", re.sub(r"\(float\[\]\)\{[^}]*\}", "floats", c))
        self.assertGreaterEqual(len(calls), 5)
        for call, arguments in calls:
            declared = re.search(rf"^\w.*\b{call}\(([^;]*)\);", read("c", "bbqvec_index.h"), re.M).group(1)
            self.assertEqual(declared.count(","), arguments.count(","), call)
        rust = re.search(r"^```rust\n(.*?)^```", text, re.M | re.S).group(1)
        source = "".join(p.read_text(encoding="utf-8") for p in (ROOT / "rust" / "bbqvec" / "src").glob("*.rs"))
        for name in re.findall(r"\bindex\.(\w+)\(", rust) + re.findall(r"\b[A-Z]\w+::(\w+)\(", rust):
            if name != "Some":
                self.assertRegex(source, rf"pub (?:const )?fn {name}\b")
        self.assertIn(rust.strip(), read("rust", "bbqvec", "README.md"))


class Version(unittest.TestCase):
    def test_one_version_everywhere(self):
        """The newest entry of the changes, the header, the wrapper and the script say the same."""
        told = {
            "CHANGELOG.md": re.search(r"^## (\d+\.\d+\.\d+)$", read("CHANGELOG.md"), re.M).group(1),
            "c/bbqvec.h": re.search(r'^#define BBQVEC_VERSION "(.*)"$', read("c", "bbqvec.h"), re.M).group(1),
            "rust/bbqvec/Cargo.toml": re.search(r'^version = "(.*)"$', read("rust", "bbqvec", "Cargo.toml"), re.M).group(1),
            "search": re.search(r"^version=(.*)$", read("search"), re.M).group(1),
        }
        self.assertEqual(1, len(set(told.values())), told)


class Words(unittest.TestCase):
    def test_pages_speak_of_the_project_alone(self):
        for page in PAGES:
            with self.subTest(page=page.name):
                self.assertNotRegex(page.read_text(encoding="utf-8"), r"(?<![\w.])/(?:work|tmp|home|root|opt)/|https?://(?!www\.w3\.org)")


if __name__ == "__main__":
    unittest.main()
