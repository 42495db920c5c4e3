"""Tests of tools/draw. Pictures and pages are compared by their structure: boxes, texts, steps, and how they are nested."""

import re
import shutil
import subprocess
import tempfile
import xml.etree.ElementTree as xml
from pathlib import Path

from .common import boxes, drawn, PROGRAM, replies, run, run_forked, SECONDS, structure, SVG, texts, TOP, tree_of_height, ProgramTestCase

TWO_LEVELS = """batch 5
image primary height 2
inner 2 3
  + 8000000000000001 1,"Oslo, <west>"
  - 8000000000000004
  ~ 8000000000000004 add,qty,-2
  leaf 2
    = 8000000000000001 1,Bergen
    = 8000000000000002 2,"two
lines"
  | 8000000000000003
  leaf 1
    = 8000000000000003 3,Molde
end
"""

BROKEN = [
    ("image primary height 2\ninner 2 0\nend\n", "image 1, of primary, is broken: its line 'inner 2 0' has 0 children below it, and has to have 2"),
    ("image primary height 1\ninner 0 0\nend\n", "image 1, of primary, is broken: its line 'inner 0 0' has 0 children below it, and has to have 1"),
    ("image by_x height 1\nleaf 1\n  = 80", "image 1, of by_x, is broken: its line 'end' is missing, so the replies were cut inside of it"),
    ("image a height 1\nleaf 0\nend\nimage b height 1\nleaf 0\nimage c height 1\n", "image 2, of b, is broken: the next image begins before its line 'end'"),
    ("image a height 1\nleaf 2\n  = 80 x\nend\n", "its line 'leaf 2' has 1 row or entry below it, and has to have 2"),
    ("image a height 2\ninner 1 1\n  leaf 0\nend\n", "its line 'inner 1 1' has 0 messages below it, and has to have 1"),
    ("image a height 2\ninner 2 0\n  leaf 0\n  leaf 0\nend\n", "its line 'inner 2 0' has 0 pivots below it, and has to have 1"),
    ("image a height 1\nleaf 1\n  + 80 x\nend\n", "below its line 'leaf 1' is '+ 80 x', which belongs to an inner node"),
    ("image a height 3\nleaf 0\nend\n", "its height is 3, and a leaf of it, 'leaf 0', is at height 1"),
    ("image a height 1\nleaf 1\n  = xy 1\nend\n", "'  = xy 1' is none of its lines"),
    ("image a height 1\nleaf 0\nleaf 0\nend\n", "'leaf 0' is none of its lines"),
    ("image a height 1\nend\n", "it has no node"),
]


class Drawing(ProgramTestCase):
    def test_draw_shows_nodes_messages_and_pivots(self):
        picture = drawn(TWO_LEVELS)
        self.assertEqual([len(boxes(picture, kind)) for kind in ("figure", "inner", "leaf", "left-out")], [1, 1, 2, 0])
        self.assertEqual(texts(picture, "title"), ["1. primary, height 2, after the reply 'batch 5'"])
        self.assertEqual(texts(picture, "put", "del", "upsert"), ['+ 1,"Oslo, <west>"', "- 4", "~ 4 add,qty,-2"])
        self.assertEqual(texts(boxes(picture, "leaf")[0], "head", "row"), ["leaf, 2 rows", "1,Bergen", '2,"two↵lines"'])
        self.assertEqual(texts(picture, "pivot"), ["| 3"])
        self.assertEqual(len(list(picture.iter(SVG + "path"))), 2)

    def test_draw_takes_all_images_of_a_run(self):
        script = "table 4 8 4 1 id:int n:int\nimage primary\nbatch\nput 1,1\nend\nimage primary\n"
        picture = drawn(replies(script))
        self.assertEqual(texts(picture, "title"), ["1. primary, height 1, after the reply 'table 2'", "2. primary, height 1, after the reply 'batch 1'"])

    def test_draw_cuts_a_tree_of_height_7(self):
        image, leaves = tree_of_height(7)
        for columns in (2, 6, 16, 40):
            picture = drawn(image, "--columns", str(columns))
            self.assertGreaterEqual(len(boxes(picture, "inner")), 6)
            shown = len(boxes(picture, "leaf"))
            out = [int(text.split()[0].replace(",", "")) for text in texts(picture, "more") if "leaves" in text]
            self.assertEqual((shown > 0, shown + sum(out)), (True, leaves))
            self.assertLess(float(picture.get("width")), 260 * max(columns, 16))

    def test_draw_counts_lines_that_are_left_out(self):
        rows = "".join(f"  = {2**63 + key:016x} {key},x\n" for key in range(100))
        picture = drawn(f"image primary height 1\nleaf 100\n{rows}end\n", "--lines", "5")
        self.assertEqual(texts(picture, "row", "more"), [*(f"{key},x" for key in range(5)), "95 more rows"])

    def test_draw_reads_keys_of_several_columns(self):
        script = 'table 4 2 2 2 city:text on:flag n:int\nbatch\nput Oslo,true,1\nput Oslo,false,2\nput "A",true,3\nend\n'
        script += "batch\ndel Oslo,true\nend\nimage primary\n"
        picture = drawn(replies(script))
        self.assertEqual((texts(picture, "pivot"), texts(picture, "del")), (["| Oslo,true"], ["- Oslo,true"]))
        script = "table 4 2 2 2 hash:bytes on:flag\nbatch\nput 00FF,true\nput ,true\nput 0a,true\nend\nbatch\ndel 00ff,true\nend\nimage primary\n"
        picture = drawn(replies(script))
        self.assertEqual((texts(picture, "pivot"), texts(picture, "del")), (["| 0a,true"], ["- 00ff,true"]))

    def test_draw_wants_an_image(self):
        self.assertEqual(run("tools/draw", given=b"batch 1\n")[0], 1)
        self.assertEqual(run("tools/draw", given=b"image primary height 1\nleave 3\nend\n")[0], 1)
        self.assertEqual(run("tools/draw", "--columns", "1")[0], 2)

    def test_draw_says_how_an_image_is_broken(self):
        for given, fault in BROKEN:
            status, text, errors = run_forked("tools/draw", given=given.encode())
            self.assertEqual((status, text, errors.count("\n")), (1, "", 1))
            self.assertIn(fault, errors)

    def test_draw_wants_words_that_fit_together(self):
        flush = "examples/flush"
        for words in (["--page"], ["--every"], ["no/such"], ["--script", "no/such"], ["--script", flush, flush], ["--script", flush, "--lines", "0"]):
            status, text, errors = run_forked("tools/draw", *words)
            self.assertEqual((status, text, "Traceback" in errors), (2, "", False))
        for program in ("/no/such", "/bin/false", "/bin/true"):
            status, text, errors = run("tools/draw", "--script", flush, "--program", program)
            self.assertEqual((status, text, errors.count("\n")), (3, "", 1))

    def test_draw_ends_quietly_where_nobody_reads_on(self):
        image = tree_of_height(5)[0].encode()
        with tempfile.TemporaryDirectory() as folder:
            path = Path(folder) / "image"
            path.write_bytes(image * 3)
            with subprocess.Popen([TOP / "tools/draw", path, "--columns", "1000"], stdout=subprocess.PIPE, stderr=subprocess.PIPE) as running:
                running.stdout.close()
                self.assertEqual((running.stderr.read(), running.wait()), (b"", 1))


# ---- of a script ----


METRICS = """table 4 3 3 2 metric:text minute:int hits:int errors:int on:flag
index by_errors on errors,metric include hits,on
build by_errors 1
batch
put svc000.requests,3,147,1,true
put svc000.requests,-5,120,1,false
put svc001.requests,3,9,2,true
put "svc, 2",3,9,-2,true
end
batch
put svc000.requests,3,148,1,true
del svc001.requests,3
end
image primary
image by_errors
drop by_errors
index by_errors on on
build by_errors 9
image by_errors
"""


def of_script(script, *words):
    """The status, the standard output and the standard error of tools/draw on a script."""
    with tempfile.TemporaryDirectory() as folder:
        path = Path(folder) / "example.script"
        path.write_bytes(script if isinstance(script, bytes) else script.encode())
        return run_forked("tools/draw", "--program", PROGRAM, "--script", path, *words)


def picture_of_script(test, script, *words):
    status, text, errors = of_script(script, *words)
    test.assertEqual((status, errors), (0, ""))
    return xml.fromstring(text)


class DrawingOfAScript(ProgramTestCase):
    def test_draw_reads_the_keys_of_an_index(self):
        """From the lines of the script: a column that is in the key twice is shown once, and a name may get another index."""
        picture = picture_of_script(self, METRICS)
        self.assertEqual(texts(picture, "title"), [
            "1. primary (metric, minute), height 2, after the reply 'batch 2 by_errors:2'",
            "2. by_errors (errors, metric, minute), height 2",
            "3. by_errors (on, metric, minute), height 1, after the reply 'build by_errors 3 complete'",
        ])  # fmt: skip
        rows, entries, others = boxes(picture, "figure")
        self.assertEqual(texts(rows, "put", "del", "pivot"), ["+ svc000.requests,3,148,1,true", "- svc001.requests,3", "| svc000.requests,3"])
        self.assertEqual(texts(entries, "head"), ["inner, 2 messages", "leaf, 2 entries", "leaf, 2 entries"])
        self.assertEqual(texts(entries, "put", "del", "pivot"), ["+ 1 svc000.requests 3 → 148 t…", "- 2 svc001.requests 3", "| 1 svc000.requests 3"])
        shown = ['-2 "svc, 2" 3 → 9 true', "1 svc000.requests -5 → 120 fa…", "1 svc000.requests 3 → 147 true", "2 svc001.requests 3 → 9 true"]
        self.assertEqual(texts(entries, "row"), shown)
        self.assertEqual(texts(others, "head", "row"), ["leaf, 3 entries", "false svc000.requests -5", 'true "svc, 2" 3', "true svc000.requests 3"])

    def test_draw_leaves_the_keys_of_an_index_as_they_stand_without_a_script(self):
        picture = drawn(replies("table 4 3 3 1 id:int n:int\nindex q on n include n\nbuild q 1\nbatch\nput 1,7\nend\nimage q\n"))
        self.assertEqual(
            texts(picture, "title", "head", "row"), ["1. q, height 1, after the reply 'batch 1 q:1'", "leaf, 1 entry", "80000000000000078000000000000…"]
        )
        self.assertEqual([title.text for title in picture.iter(SVG + "title")], ["80000000000000078000000000000001 7"])

    def test_draw_shows_where_lines_begin_to_differ(self):
        """Lines of a box that are cut do not look alike, and are shown whole on a touch; an emoji is two letters wide."""
        start = "https://example.org/a/long/way/"
        names = [start + name for name in ("roses", "roses-red", "tulips & <lilies>", "🌷" * 30)]
        script = "table 4 4 4 1 address:text note:text\nbatch\n" + "".join(f"put {name},x\n" for name in names) + "end\nimage primary\n"
        rows = [text for text in picture_of_script(self, script).iter(SVG + "text") if text.get("class") == "row"]
        shown = [text.text for text in rows]
        self.assertEqual((len(set(shown)), [len(text) <= 30 for text in shown]), (4, [True] * 4))
        self.assertEqual([text.find(SVG + "title").text for text in rows], [name + ",x" for name in sorted(names, key=str.encode)])
        self.assertIn("roses-red", shown[1])
        self.assertIn("tulips", shown[2])
        self.assertLessEqual(sum(1 + (letter == "🌷") for letter in shown[3]), 30)

    def test_draw_puts_no_edge_over_a_pivot(self):
        """Each label of a pivot has a white background, and nothing that is drawn after it crosses it."""
        picture, grounds = drawn(tree_of_height(7)[0], "--columns", "40"), []
        pivots = len(texts(picture, "pivot"))
        for element in picture.iter():
            if element.get("class") == "ground":
                grounds.append([int(element.get(name)) for name in ("x", "y", "width", "height")])
            elif element.get("class") == "edge":
                left, top, bar, right, bottom = map(int, re.fullmatch(r"M(\d+) (\d+) V(\d+) H(\d+) V(\d+)", element.get("d")).groups())
                for x, y, width, height in grounds:
                    self.assertEqual((left in range(x, x + width) and y in range(top, bar), bar in range(y, y + height)), (False, False))
                    self.assertFalse(right in range(x, x + width) and y in range(bar, bottom))
        self.assertEqual(len(grounds), pivots)

    def test_draw_prints_trees_behind_each_command_that_changes_them(self):
        script = "table 4 3 3 1 id:int n:int\nindex q on n\nbuild q 1\nbatch\nput 1,7\nend\nget 1\nindex q on id\nindex Q on id\ndrop q\nbatch\ndel 1\nend"
        picture = picture_of_script(self, script, "--every")
        self.assertEqual([title.split(". ")[1] for title in texts(picture, "title")], [
            "primary (id), height 1, after the reply 'table 2'",
            "q (n, id), height 1, after the reply 'index q'",
            "q (n, id), height 1, after the reply 'build q 0 complete'",
            "primary (id), height 1, after the reply 'batch 1 q:1'",
            "q (n, id), height 1, after the reply 'batch 1 q:1'",
            "q (n, id), height 1, after the reply 'refused 9 NameTaken'",
            "primary (id), height 1, after the reply 'batch 1'",
        ])  # fmt: skip
        self.assertEqual(of_script(script)[0], 1)


# ---- pages ----


HTML = "{http://www.w3.org/1999/xhtml}"


def page_of_script(test, script, *words):
    status, text, errors = of_script(script, "--page", *words)
    test.assertEqual((status, errors), (0, ""))
    return xml.fromstring(text)


def of_class(element, *kinds):
    """The elements of all of these classes; they may have other classes too."""
    return [found for found in element.iter() if set(kinds) <= set((found.get("class") or "").split())]


def text_of(element):
    return "".join(element.itertext())


def steps_shown(page):
    """Of each step its number, its command, and the figures that are shown with it, with the steps that printed them."""
    steps = of_class(page, "step")
    return [(step.get("data-step"), text_of(step.find(f".//{HTML}code")), step.get("data-trees")) for step in steps]


LONG = """<b>&amp; "quoted" 'and' 🌱 </script> ]]> e\u0301 \0\x0b\ufffe [name] {name}
of two lines, and of 255 bytes """

# What is pressed and clicked in a browser, and what is seen after each: the step, the trees with their states, and whether the page is too wide.
PRESSED = """<script>
const press = key => document.dispatchEvent(new KeyboardEvent("keydown", { key, bubbles: true, cancelable: true }));
const isSeen = element => element.getClientRects().length > 0;
const textsSeen = kind => [...document.querySelectorAll(kind)].filter(isSeen).map(element => element.textContent).join(" ");
const seen = [];
const widthSeen = () => document.documentElement.scrollWidth > innerWidth ? "too wide" : "fits";
const kinds = ["#place", ".detail .reply", "figcaption b", ".state", ".when"];
const see = () => seen.push([location.hash, ...kinds.map(textsSeen), widthSeen()].join("; "));
see();
for (const key of ["ArrowRight", "ArrowRight", "ArrowLeft", "End", "ArrowRight", "Home", "ArrowLeft", "x"]) { press(key); see(); }
document.querySelector("#forward").click(); see();
document.querySelectorAll(".command")[3].click(); see();
document.body.dataset.seen = seen.join("|");
</script>"""


def browser():
    return next(filter(None, map(shutil.which, ("chromium", "chromium-browser", "google-chrome"))), None)


def seen_in_browser(script, fragment, size):
    """What is seen of a script's page in a window of this size: first as it opens at the fragment, and then after each press and click."""
    with tempfile.TemporaryDirectory() as folder:
        page = Path(folder) / "page.html"
        page.write_text(of_script(script, "--page")[1].replace("</body>", PRESSED + "</body>"))
        words = ["--headless", "--no-sandbox", "--disable-gpu", f"--user-data-dir={folder}/user", f"--window-size={size}", "--dump-dom"]
        ended = subprocess.run([browser(), *words, f"file://{page}{fragment}"], capture_output=True, timeout=SECONDS)
    return re.search('data-seen="([^"]*)"', ended.stdout.decode())[1].split("|")


class DrawingOfPages(ProgramTestCase):
    def test_page_has_each_step_and_its_trees(self):
        page = page_of_script(self, (TOP / "examples/flush").read_text())
        self.assertEqual(steps_shown(page), [
            ("1", "table 4 4 3 1 id:int city:text qty:int", ""), ("2", "batch", ""), ("3", "batch", ""), ("4", "image primary", "1:4"),
            ("5", "batch", "1:4"), ("6", "image primary", "2:6"),
        ])  # fmt: skip
        batch, image = of_class(page, "step")[4:]
        self.assertEqual(text_of(of_class(batch, "block")[0]), "ups 8,add,qty,-1\nend")
        self.assertEqual(text_of(of_class(batch, "reply")[0]), "batch 1")
        self.assertEqual(text_of(of_class(image, "reply")[0]), "image primary height 2\n… 16 more lines")
        self.assertEqual([figure.get("data-figure") for figure in page.iter(HTML + "figure")], ["1", "2"])

    def test_page_marks_nodes_that_changed(self):
        """The fourth message flushed the last leaf: it and the root have changed, and of the leaf's lines the one that came is marked."""
        first, second = page_of_script(self, (TOP / "examples/flush").read_text()).iter(HTML + "figure")
        self.assertEqual((text_of(of_class(first, "state")[0]), of_class(first, "changed"), of_class(first, "new")), ("first image", [], []))
        self.assertEqual(text_of(of_class(second, "state")[0]), "2 of 4 nodes changed")
        self.assertEqual([texts(node, "head") for node in of_class(second, "changed")], [["inner, 2 messages"], ["leaf, 1 row"]])
        self.assertEqual([len(of_class(node, "new")) for node in of_class(second, "changed")], [0, 1])
        self.assertEqual(len(of_class(second, "inner") + of_class(second, "leaf")), 4)
        # A node whose pivots alone are others has changed too.
        script = "table 4 2 2 1 id:int\nbatch\nput 1\nput 2\nput 3\nput 4\nend\nimage primary\nbatch\nput 5\nput 6\nput 7\nend\nimage primary\n"
        first, second = page_of_script(self, script).iter(HTML + "figure")
        self.assertEqual([texts(figure, "pivot") for figure in (first, second)], [["| 3"], ["| 3", "| 5", "| 7"]])
        self.assertEqual([texts(node, "head")[0] for node in of_class(second, "changed")], ["inner, 0 messages", "leaf, 2 rows", "leaf, 1 row"])

    def test_page_of_a_script_without_images(self):
        """With --every: what is left as it was is not printed again, and a tree goes with its index."""
        script = "table 4 3 3 1 id:int n:int\nindex q on n\nbatch\nput 1,7\nend\nbatch\ndel x\nend\nbuild q 1\nget 1\ndrop q\nindex q on id\nbatch\nput 2,8"
        page = page_of_script(self, script, "--every")
        shown = [trees for _, _, trees in steps_shown(page)]
        self.assertEqual(shown, ["1:1", "1:1 2:2", "3:3 2:2", "3:3 2:2", "3:3 4:5", "3:3 4:5", "3:3", "3:3 5:8", "3:3 5:8"])
        replied = [text_of(of_class(step, "reply")[0]) for step in of_class(page, "step")]
        self.assertEqual(replied[:6], ["table 2", "index q", "batch 1 q:0", "refused 6 BadField 1", "build q 1 building", "row 1,7"])
        self.assertEqual(replied[6:], ["dropped q", "index q", "refused 2 Unfinished"])
        states = [text_of(of_class(figure, "state")[0]) for figure in page.iter(HTML + "figure")]
        self.assertEqual(states, ["first image", "1 of 1 node changed", "first image", "1 of 1 node changed", "first image"])
        self.assertEqual([step.get("data-step") for step in of_class(page, "step", "refused")], ["4", "9"])
        self.assertEqual(text_of(of_class(page, "block")[-1]), "put 2,8\nthe script ends in this block")

    def test_page_shows_a_tree_that_has_lost_nodes_alone(self):
        script = "table 4 4 3 1 id:int\nbatch\nput 1\nput 2\nput 3\nput 4\nend\nbatch\ndel 3\ndel 4\nend\ndrain primary\nrebuild primary\n"
        page = page_of_script(self, script, "--every")
        self.assertEqual([trees for _, _, trees in steps_shown(page)], ["1:1", "2:2", "3:3", "4:4", "5:5"])
        states = [text_of(of_class(figure, "state")[0]) for figure in page.iter(HTML + "figure")]
        self.assertEqual(states, ["first image", "3 of 3 nodes changed", "1 of 3 nodes changed", "2 of 3 nodes changed", "no node changed, 2 gone"])

    def test_page_has_the_replies_of_the_script_alone(self):
        """Those of images that were added are none of them, of refused ones neither."""
        pages = [page_of_script(self, (TOP / "examples/online_building").read_text(), *words) for words in ([], ["--every"])]
        replied = [[text_of(reply) for reply in of_class(page, "reply")] for page in pages]
        self.assertEqual((len(replied[0]), replied[1]), (18, replied[0]))
        replied = [text_of(reply) for reply in of_class(page_of_script(self, (TOP / "examples/changes").read_text(), "--every"), "reply")]
        self.assertEqual("\n".join(replied) + "\n", (TOP / "examples/changes.stdout").read_text())

    def test_page_shows_any_text(self):
        """Texts of 255 bytes with all that a page might take for its own; of bytes that cannot be seen the number. They differ in their last byte alone."""
        text = (LONG + "x" * 255).encode()[:255].decode()
        quoted, other = ['"' + value.replace('"', '""') + '"' for value in (text, text[:-1] + "y")]
        script = (
            f"table 4 4 3 1 id:int <no command>\ntable 4 4 3 1 id:int note:text\nload\nid,note\n1,{quoted}\n2,{other}\n.\nimage primary\nscan primary\ngo\n"
        )
        script += "index q on note include note\nbuild q 5\nimage q\n"
        page = page_of_script(self, script.encode() + b"get \xff\x00\n")
        seen, other_seen = [value.replace("\0", r"\x00").replace("\x0b", r"\x0b").replace("\ufffe", r"\xfffe") for value in (quoted, other)]
        steps = of_class(page, "step")
        self.assertEqual(text_of(of_class(steps[2], "block")[0]), f"id,note\n1,{seen}\n2,{other_seen}\n.")
        self.assertEqual([text_of(of_class(step, "reply")[0]) for step in steps[2:5:2]], ["loaded 2", f"row 1,{seen}\nrow 2,{other_seen}\nrows 2"])
        self.assertEqual((steps_shown(page)[0][1], steps_shown(page)[-1][1]), ("table 4 4 3 1 id:int <no command>", r"get \xff\x00"))
        rows, entries = page.iter(HTML + "figure")
        self.assertEqual(next(rows.iter(SVG + "title")).text, "1," + re.sub("[\0\x0b\ufffe]", "·", quoted).replace("\n", "↵"))
        self.assertEqual([len(set(texts(figure, "row"))) for figure in (rows, entries)], [2, 2])

    def test_page_has_the_first_thousand_commands(self):
        page = page_of_script(self, "table 4 4 3 1 id:int\nimage primary\n" + "get 1\n" * 1001)
        self.assertEqual((len(of_class(page, "step")), text_of(of_class(page, "rest")[0])), (1000, "3 more commands of the script are not on this page."))

    def test_page_cuts_blocks_and_replies(self):
        rows = "".join(f"put {key}\n" for key in range(14))
        page = page_of_script(self, f"table 4 4 3 1 id:int\nbatch\n{rows}end\nscan primary\ngo\nscan primary\nto 12\ngo\nimage primary\n")
        steps = of_class(page, "step")
        self.assertEqual(text_of(of_class(steps[1], "block")[0]).split("\n")[11:], ["put 11", "… 2 more lines", "end"])
        self.assertEqual(text_of(of_class(steps[2], "reply")[0]).split("\n")[11:], ["row 11", "… 3 more lines"])
        self.assertEqual(text_of(of_class(steps[3], "reply")[0]).split("\n")[11:], ["row 11", "rows 12"])

    def test_page_is_stepped_through_in_a_browser(self):
        """In headless Chromium, by the fragment, by keys and by clicks, and on a narrow window, which no long line and no wide tree makes wider.

        Where no Chromium is installed it passes without a look.
        """
        if browser() is None:
            return
        last = "#step-6; step 6 of 6; image primary height 2\n… 16 more lines; primary; 2 of 4 nodes changed; ; fits"
        fifth = "#step-5; step 5 of 6; batch 1; primary; ; as printed in step 4; fits"
        first, second = "#step-1; step 1 of 6; table 3; ; ; ; fits", "#step-2; step 2 of 6; batch 8; ; ; ; fits"
        fourth = "#step-4; step 4 of 6; image primary height 2\n… 19 more lines; primary; first image; ; fits"
        flush = (TOP / "examples/flush").read_text()
        self.assertEqual(seen_in_browser(flush, "#step-5", "1280,800"), [fifth, last, last, fifth, last, last, first, first, first, second, fourth])
        rows = "".join(f"put {key},{'x' * 200}\n" for key in range(40))
        wide = f"table 4 4 4 1 id:int {'n' * 30}:text\nget 1{'2' * 200}\nbatch\n{rows}end\nimage primary\n"
        seen = seen_in_browser(wide, "#step-3", "500,800")
        self.assertEqual(({line.split("; ")[-1] for line in seen}, seen[0].split("; ")[2]), ({"fits"}, "batch 40"))

    def test_pictures_of_the_documents_are_those_of_today(self):
        with tempfile.TemporaryDirectory() as folder:
            images = Path(folder) / "images"
            images.write_text(replies((TOP / "examples/flush").read_text()))
            picture = xml.fromstring(run("tools/draw", str(images))[1])
        self.assertEqual(structure(xml.parse(TOP / "docs/flush.svg").getroot()), structure(picture))
