"""Tests of bin/site: each page is there, each link leads somewhere, what is searched for is found, and the page of contracts has both lists."""

import json
import re
import shutil
import subprocess
import tempfile
from collections.abc import Callable
from html.parser import HTMLParser
from pathlib import Path, PurePosixPath
from typing import Any
from unittest import TestCase

from .common import imported, run, SECONDS, TOP
from .documents import faulty_links

# The page of contracts is made from the sources.
CONTRACTS = Path("docs/CONTRACTS.md")
PAGES = sorted([*(path.relative_to(TOP) for folder in (".", "docs", "bench", "examples") for path in (TOP / folder).glob("*.md")), CONTRACTS])


class Elements(HTMLParser):
    """What a page of HTML has: its ids, its links, what it loads, and the texts of its headings."""

    def __init__(self, text: str) -> None:
        super().__init__()
        self.ids: list[str] = []
        self.links: list[str] = []
        self.loaded: list[str] = []
        self.headings: list[str] = []
        self.is_heading = False
        self.feed(text)

    def handle_starttag(self, tag: str, attributes: list[tuple[str, str | None]]) -> None:
        given = {name: value or "" for name, value in attributes}
        self.ids += [given["id"]] if "id" in given else []
        self.links += [given["href"]] if tag == "a" and "href" in given else []
        self.loaded += [given[name] for name in ("src", "href") if name in given and tag in ("img", "link", "script")]
        if tag in ("h1", "h2", "h3"):
            self.headings.append("")
            self.is_heading = True

    def handle_endtag(self, tag: str) -> None:
        self.is_heading = self.is_heading and tag not in ("h1", "h2", "h3")

    def handle_data(self, data: str) -> None:
        if self.is_heading:
            self.headings[-1] += data


def on_the_site(test: TestCase, check: Callable[[Path], None]) -> None:
    """Builds the site, and checks it."""
    if not shutil.which("pandoc"):
        test.skipTest("pandoc is not installed")
    with tempfile.TemporaryDirectory() as folder:
        status, text, errors = run("bin/site", folder)
        test.assertEqual((status, text), (0, f"{folder}/index.html\n"))
        test.assertIn(errors, ("", "site: no page of trees, since the program is not built\n"))
        check(Path(folder))


def address(page: Path) -> Path:
    return page.with_name("index.html") if page.name == "README.md" else page.with_suffix(".html")


def searched(test: TestCase, browser: str, folder: Path, words: str) -> str:
    """The results of a search on the first page."""
    address = f"file://{folder}/index.html?q={words.replace(' ', '%20')}"
    with tempfile.TemporaryDirectory() as profile:
        command = [browser, "--headless", "--no-sandbox", "--disable-gpu", f"--user-data-dir={profile}", "--dump-dom", address]
        ended = subprocess.run(command, capture_output=True, text=True, timeout=SECONDS)
    test.assertEqual(ended.returncode, 0)
    return ended.stdout.split('<ol id="site-results"')[1].split("</ol>")[0]


class StaticSite(TestCase):
    def test_site_has_each_page_and_its_links_lead_somewhere(self) -> None:
        """And it loads nothing from elsewhere, and no two elements of a page have one id."""

        def check(folder: Path) -> None:
            pages = {path: Elements(path.read_text()) for path in folder.glob("**/*.html")}
            self.assertEqual([str(page) for page in PAGES if folder / address(page) not in pages], [])
            for path, page in pages.items():
                with self.subTest(path=path.name):
                    faults = []
                    for link in [*page.links, *page.loaded]:
                        there, _, place = link.partition("#")
                        target = (path.parent / there).resolve() if there else path
                        is_there = target.is_file() and (not place or place in pages[target].ids)
                        faults += [link] if not (is_there or re.match("https?:", link) and link in page.links) else []
                    self.assertEqual(faults, [])
                    self.assertEqual([name for name in page.ids if page.ids.count(name) > 1], [])

        on_the_site(self, check)

    def test_each_page_of_the_site_leads_to_all_others(self) -> None:
        def check(folder: Path) -> None:
            wanted = {(folder / address(page)).resolve() for page in PAGES}
            for page in PAGES:
                with self.subTest(page=page):
                    path = folder / address(page)
                    navigation = Elements(path.read_text().split("<nav")[1].split("</nav>")[0])
                    self.assertEqual(wanted - {(path.parent / link).resolve() for link in navigation.links}, set())

        on_the_site(self, check)

    def test_sections_of_the_site_can_be_searched(self) -> None:
        """Each heading is in the index. Where Chromium is installed a search finds a section by words of its text."""

        def check(folder: Path) -> None:
            index = json.loads((folder / "search_index.js").read_text().removeprefix("const SECTIONS = ").rstrip().removesuffix(";"))
            titles = {(page, title) for page, _, _, title, _ in index}
            for page in PAGES:
                with self.subTest(page=page):
                    headings = Elements((folder / address(page)).read_text()).headings
                    self.assertEqual([heading for heading in headings if (str(address(page)), " ".join(heading.split())) not in titles], [])
            browsers = [path for name in ("chromium", "chromium-browser", "google-chrome") if (path := shutil.which(name))]
            if not browsers:
                self.skipTest("no Chromium is installed")
            self.assertIn("The script language: Refusals", searched(self, browsers[0], folder, "DuplicateKey earlier record"))
            self.assertIn("Nothing was found.", searched(self, browsers[0], folder, "nosuchword"))

        on_the_site(self, check)

    def test_the_page_of_contracts_has_the_lists_of_the_tools(self) -> None:
        """Under their headings, with links to headings of pages that are there."""
        site: Any = imported("bin/site")
        text = site.contracts_text()
        definitions, functions = text.split("\n## Definitions of the theorem\n")[1].split("\n## Public functions\n")
        for tool, part in (("tools/reading_list", definitions), ("tools/promises", functions)):
            with self.subTest(tool=tool):
                status, printed, errors = run(tool)
                self.assertEqual((status, errors), (0, ""))
                self.assertIn(printed.strip(), part)
        self.assertEqual(faulty_links(CONTRACTS, text), [])
        self.assertIn(str(CONTRACTS), {str(page) for page in site.pages()})

    def test_a_link_to_nothing_is_a_fault_of_the_site(self) -> None:
        site: Any = imported("bin/site")
        with tempfile.TemporaryDirectory() as folder:
            built = site.Site(Path(folder))
            page = PurePosixPath("docs/SCRIPT.md")
            self.assertEqual(built.target(page, "HOW_TO.md#the-shape"), "HOW_TO.html#the-shape")
            self.assertEqual(built.target(page, "../examples"), "../examples/index.html")
            self.assertEqual((built.target(page, "../examples/flush"), built.files), ("../examples/flush.txt", {PurePosixPath("examples/flush")}))
            self.assertEqual(built.target(page, "#limits"), "#limits")
            with self.assertRaises(site.Fault) as raised:
                built.target(page, "NONE.md")
            fault = raised.exception
            self.assertEqual(str(fault), "docs/SCRIPT.md: the link NONE.md leads to no file")
