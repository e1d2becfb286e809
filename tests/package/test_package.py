"""The package as a whole: its version, the Python that it needs, and the colours of its pages."""

import ast
import re
import unittest
from typing import Dict, Iterator, List

import geesefuton
from geesefuton.records import report_page
from tests.package.helpers import PACKAGE, TOP

OLDEST = (3, 9)  # the version of Python that pyproject.toml asks for
SETTINGS = (PACKAGE / "pyproject.toml").read_text()
PAGES = ("hosting/live.html", "hosting/join.html", "playing/seat.html", "practice/room.html",
         "records/report.css")
TEXTS = ("ink", "soft", "faint", "accent", "good", "warn", "c0", "c1", "c2", "c3", "c4")
SHAPES = ("edge", "bar", "minus")


def annotations(tree: ast.AST) -> Iterator[ast.expr]:
    """The annotations in a piece of syntax."""
    for node in ast.walk(tree):
        for name in ("annotation", "returns"):
            found = getattr(node, name, None)
            if found is not None:
                yield found


class Package(unittest.TestCase):
    def test_the_version_stands_once_in_code_and_the_pages_have_it(self) -> None:
        self.assertIn('version = { attr = "geesefuton.__version__" }', SETTINGS)
        self.assertNotRegex(SETTINGS, r'(?m)^version = "')
        citation = re.findall(r"(?m)^version: (.*)$", (TOP / "CITATION.cff").read_text())
        changes = re.findall(r"(?m)^## ([0-9][0-9.]*)$", (TOP / "CHANGELOG.md").read_text())
        self.assertEqual((citation, changes[0]), ([geesefuton.__version__], geesefuton.__version__))

    def test_each_room_and_file_is_installed(self) -> None:
        root = PACKAGE / "geesefuton"
        for file in root.rglob("__init__.py"):
            name = ".".join(file.parent.relative_to(PACKAGE).parts)
            self.assertIn(f'"{name}"', SETTINGS.split("packages = ")[1].split("]")[0])
        data = SETTINGS.split("package-data]\n")[1].split("\n\n")[0]
        for file in root.rglob("*.*"):
            if file.suffix not in (".py", ".pyc"):
                name = ".".join(file.parent.relative_to(PACKAGE).parts)
                line = next(line for line in data.split("\n") if line.startswith(f'"{name}"'))
                self.assertTrue(f'"*{file.suffix}"' in line or f'"{file.name}"' in line, file)

    def test_scripts_of_pages_put_texts_in_as_texts(self) -> None:
        pages = [file.read_text() for file in (PACKAGE / "geesefuton").rglob("*.html")]
        self.assertEqual(len(pages), 4)
        for page in (*pages, report_page.SCRIPT):
            self.assertIn("<script>", page)
            self.assertNotRegex(page, r"innerHTML|outerHTML|insertAdjacentHTML|document\.write|"
                                      r"createContextualFragment|\beval\(|setHTML|srcdoc")

    def test_the_oldest_python_can_read_everything(self) -> None:
        self.assertIn(f'requires-python = ">={OLDEST[0]}.{OLDEST[1]}"', SETTINGS)
        bad: List[str] = []
        files = [*PACKAGE.rglob("*.py"), *(TOP / "tests").rglob("*.py"),
                 *(TOP / "docs").glob("*.py"), *(TOP / "examples").rglob("*.py"),
                 *(TOP / "bench").glob("*.py")]
        self.assertGreater(len(files), 60)
        for file in files:
            tree = ast.parse(file.read_text(encoding="utf-8"), str(file), feature_version=OLDEST)
            is_late = any(isinstance(node, ast.ImportFrom) and node.module == "__future__"
                          and node.names[0].name == "annotations" for node in tree.body)
            # In 3.9 `X | Y` of two types fails when it is evaluated.
            if not is_late and any(isinstance(node, ast.BinOp) and isinstance(node.op, ast.BitOr)
                                   for each in annotations(tree) for node in ast.walk(each)):
                bad.append(str(file))
        self.assertEqual(bad, [])


def lightness(colour: str) -> float:
    """The relative lightness of a colour such as `#fff`."""
    digits = colour[1:] if len(colour) == 7 else "".join(2 * digit for digit in colour[1:])
    parts = [int(digits[place:place + 2], 16) / 255 for place in (0, 2, 4)]
    parts = [part / 12.92 if part <= 0.04045 else ((part + 0.055) / 1.055) ** 2.4 for part in parts]
    return 0.2126 * parts[0] + 0.7152 * parts[1] + 0.0722 * parts[2]


def contrast(one: str, other: str) -> float:
    """The ratio of two colours, 1 to 21."""
    first, second = sorted((lightness(one), lightness(other)), reverse=True)
    return (first + 0.05) / (second + 0.05)


STYLE = (PACKAGE / "geesefuton/network/style.css").read_text(encoding="utf-8")
THEMES: List[Dict[str, str]] = [
    colours for colours in (dict(re.findall(r"--(\w+): (#[0-9a-f]+)", block))
                            for block in re.findall(r":root[^{]*\{([^}]*)\}", STYLE)) if colours]


class Colours(unittest.TestCase):
    def test_there_is_a_light_theme_and_a_dark_one(self) -> None:
        light, dark = THEMES
        self.assertEqual(light.keys(), dark.keys())

    def test_all_pages_have_these_colours_and_no_others(self) -> None:
        for page in PAGES:
            text = (PACKAGE / "geesefuton" / page).read_text(encoding="utf-8")
            style = text if page.endswith(".css") else \
                text[text.index("<style>"):text.index("</style>")]
            style = style.replace("#000", "")  # what a mask shows
            self.assertEqual(re.findall(r"#[0-9a-f]{3,8}\b|--\w+: #", style), [], page)
            self.assertLessEqual(set(re.findall(r"var\(--(\w+)\)", text)) - {"row", "fade"},
                                 set(THEMES[0]), page)

    def test_texts_edges_and_bars(self) -> None:
        grounds = [(name, ground) for name in (*TEXTS, *SHAPES) for ground in ("paper", "card")]
        for colours in THEMES:
            for name, ground in (*grounds, ("on", "accent"), ("good", "track"), ("warn", "track"),
                                 ("soft", "track"), ("accent", "tint"), ("ink", "tint"),
                                 ("paper", "ink"), ("paper", "warn")):
                with self.subTest(name=name, ground=ground):
                    self.assertGreaterEqual(contrast(colours[name], colours[ground]),
                                            3.0 if name in SHAPES else 4.5)
