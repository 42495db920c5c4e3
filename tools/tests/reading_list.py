"""Tests of tools/reading_list."""

import re
import tempfile
from pathlib import Path
from unittest import TestCase

from .common import imported, run, run_forked, TOP

# Two crates, and a function `answer` with the clauses that the list begins with. No definition named `unused` counts.
LISTED = {
    "crates.txt": "# Two crates.\nupper: lower\nlower: csv\n",
    "crates/upper/src/run.rt": """ghost use Rattle.std.specs.Prelude.{◌≡◌, IfOk};
ghost use Rattle.upper.specs.Answers.{answer_of, unused};
ghost use Rattle.lower.specs.Weights as spec;

use lower::{LIMIT, Merge};
use std::io::Read;

fn helper(step: u8) -> bool
    ensures { unused step ≡ 1 }
{
    true
}

pub fn answer<R: Read, V: Merge>(
    reader: &mut R,
    unused: V,
) -> Result<u64, Refusal>
    requires { spec.weight_of unused ≡ LIMIT } // spec.unused
    ensures found { IfOk result (λ more. more ≡ answer_of V.merged (R.remaining reader.old)) }
{
    Ok(0)
}
""",
    "crates/upper/specs/Answers.antt": """use Rattle.std.specs.Prelude.{ℕ, zero, List, [], ◌∷◌, ◌+◌, if◌then◌else◌, Bool, true, codes}
use Rattle.lower.specs.Shown.{weight_of as weight}
use Rattle.lower.specs.declared.item.Kind.{Kind}
use Rattle.lower.specs.declared.item.Kind.TheVariants as kind
use Rattle.upper.specs.Holds.{Held, with_step}

module _ {X : Type 0} (entry : X → ℕ)
    (base : Held) where
  -- an answer, and not `unused`
  abbrev pub answer_of : List X → ℕ
  answer_of [] = (with_step base).unused
  answer_of (unused ∷ rest) = if check unused then entry unused + answer_of rest else total rest
    where
      check : X → Bool
      check step = is_light (entry step)

  abbrev pub total : List X → ℕ
  total xs = zero {- unused -}

abbrev pub is_light : ℕ → Bool
is_light n = elim (weight n) [ zero ↦ is_kind kind.Light (codes "unused") | unused ↦ is_kind kind.Heavy unused ]

abbrev pub is_kind : Kind → ℕ → Bool
is_kind kind.Light n = true
is_kind kind.Heavy n = let unused = is_light n in unused

abbrev pub unused : ℕ → ℕ
unused n = n
""",
    "crates/upper/specs/Holds.antt": """use Rattle.std.specs.Prelude.{ℕ, zero, ◌≡◌}
use Rattle.lower.specs.Shown.{Row}
use Rattle.lower.specs.declared.item.TheConstants.{MOST}

pub record Held : Type 0 where
  pub row : Row
  pub unused : ℕ
  pub same : unused ≡ MOST

abbrev pub with_step : Held → Held
with_step held = record held { unused = (λ unused. unused) held.unused }

abbrev pub unused : ℕ
unused = zero
""",
    "crates/lower/specs/Shown.antt": "pub use Rattle.lower.specs.Weights.{Row, weight_of}\n",
    "crates/lower/specs/Weights.antt": """use Rattle.std.specs.Prelude.{ℕ, suc}
use Rattle.csv.specs.Reading.{records}

abbrev mutual
  pub weight_of : ℕ → ℕ
  weight_of n = more n

  pub more : ℕ → ℕ
  more n = suc (total n)

pub data Row : Type 0 where
  Short : Cell → Row
  Long : (unused : ℕ) → Row

pub data Side : Type 0 where
  Left : Side

abbrev pub Cell : Type 0
Cell = records

abbrev pub total : ℕ → ℕ
total unused = unused

abbrev pub unused : ℕ
unused = suc 0
""",
    "crates/lower/specs/Texts.antt": "use Rattle.std.specs.Prelude.{ℕ}\nabbrev pub Letters : Type 0\nLetters = ℕ\n",
    "crates/lower/src/lib.rt": "pub use item::{Kind, LIMIT};\npub use merge::{Merge, Ordered};\n",
    "crates/lower/src/merge.rt": "pub trait Merge {\n    type Delta;\n    ghost merged: { Self → Self.Delta };\n}\npub trait Ordered: Merge + Drop {\n    ghost unused: { Self };\n}\n",
    "crates/lower/src/item.rt": """use crate::text::Text;
pub const LIMIT: u64 = 4; // Unused
pub const MOST: u64 = 5;
pub enum Kind { Light, Heavy(Text, u8), Unused { text: Text } }
pub struct Unused;
""",
    "crates/lower/src/text.rt": """pub struct Text { bytes: Unused }
impl Model for Text {
    ghost use Rattle.lower.specs.Texts.{Letters};
    ghost Value = { Letters };
}
pub struct Unused;
""",
}

LIST = """12 definitions in 4 files, as `tools/reading_list` finds them from the clauses of `answer`, each file after those that it rests on:

- `lower/specs/Texts`: `Letters`
- `lower/specs/Weights`: `weight_of`, `more`, `Row`, `Cell`, `total`
- `upper/specs/Holds`: `Held`, `with_step`
- `upper/specs/Answers`: `answer_of`, `total`, `is_light`, `is_kind`

Types and constants of the program that these name, or that their fields have:

- `lower/src/item`: `Kind`, `LIMIT`, `MOST`
- `lower/src/merge`: `Merge`
- `lower/src/text`: `Text`

Of the libraries:

- `csv`, Reading: `records`
- `std`, Prelude: `Bool`, `IfOk`, `List`, `[]`, `codes`, `if◌then◌else◌`, `suc`, `true`, `zero`, `ℕ`, `◌+◌`, `◌∷◌`, `◌≡◌`
- `std`, io: `Read.remaining`
"""


def reading_list(test, *words, file="crates.txt", old="", new=""):
    """The status, output and errors of tools/reading_list on the two crates, with a text of a file changed."""
    with tempfile.TemporaryDirectory() as folder:
        for name, text in LISTED.items():
            path = Path(folder) / name
            path.parent.mkdir(parents=True, exist_ok=True)
            path.write_text(text)
        test.assertIn(old, LISTED[file])
        (Path(folder) / file).write_text(LISTED[file].replace(old, new))
        return run_forked("tools/reading_list", "--top", folder, *words, "upper/src/run.rt:answer")


def definitions_of(test, *roots):
    """The definitions that the clauses of these functions rest on, by file, as bt_shell/specs/Runs. Where none is given, those of the theorem."""
    status, text, errors = run_forked("tools/reading_list", *roots)
    test.assertEqual((status, errors), (0, ""))
    entries = re.split(r"^- ", text.partition("Types and constants")[0], flags=re.MULTILINE)[1:]
    return {names[0]: names[1:] for names in (re.findall(r"`([^`]+)`", entry) for entry in entries)}


def steps_of_reading():
    return imported("tools/generate").steps_of_reading((TOP / "docs/VERIFYING.md").read_text())


class ReadingList(TestCase):
    def test_reading_list_of_the_theorem_is_made(self):
        """In lines of at most 160 letters."""
        status, text, errors = run("tools/reading_list")
        self.assertEqual((status, errors), (0, ""))
        self.assertEqual([line for line in text.splitlines() if len(line) > 160], [])
        self.assertGreater(int(text.split()[0]), 400)

    def test_reading_list_follows_each_form_of_a_name(self):
        """Fields, constructors, blocks, helpers, names passed on, renamed or after a module, ghost members, models; and no bound name."""
        status, text, errors = reading_list(self)
        self.assertEqual((status, errors), (0, ""))
        self.assertEqual(text.strip().splitlines(), LIST.strip().splitlines())

    def test_reading_list_finds_a_changed_definition(self):
        """Each of these changes one name, and with it the list."""
        answers, weights = "crates/upper/specs/Answers.antt", "crates/lower/specs/Weights.antt"
        listed = "- `lower/specs/Weights`: `weight_of`, `more`, `Row`, `Cell`, `total`\n"
        for file, old, new, expected in (
            ("crates/upper/src/run.rt", "≡ LIMIT", "≡ spec.unused", listed.replace("\n", ", `unused`\n")),
            ("crates/upper/src/run.rt", "spec.weight_of unused ≡ LIMIT", "unused ≡ spec.total", listed),
            ("crates/upper/specs/Holds.antt", "pub row : Row", "pub row : ℕ", listed.replace(" `Row`, `Cell`,", "")),
            ("crates/lower/src/text.rt", "Value = { Letters }", "Value = { Letters × Texts }", None),
            ("crates/lower/specs/Shown.antt", ", weight_of}", "}", None),
            (answers, "total xs = zero", "total xs = unused (λ unused. weight)", "`is_kind`, `unused`\n"),
            (answers, "total xs = zero", "total xs = (λ unused. zero, unused)", "`is_kind`, `unused`\n"),
            (answers, "check step = is_light (entry step)", "check step = true", "- `upper/specs/Answers`: `answer_of`, `total`\n"),
            (answers, "else total rest", "else totals rest", None),
            (weights, "suc (total n)", "suc n", listed.replace(", `total`", "")),
            (weights, "suc (total n)", "unused", listed.replace("total", "unused")),
            (weights, "suc (total n)", "Left", "`Row`, `Side`, `Cell`\n"),
            (weights, "  more n", "  unfolding unused\n  more n", listed.replace("\n", ", `unused`\n")),
            (weights, "Short : Cell", "Short : Row", listed.replace("`Cell`, ", "")),
            (weights, "Cell = records", "Cell = (unused : Row) × weight_of unused", listed),
        ):
            status, text, errors = reading_list(self, file=file, old=old, new=new)
            self.assertEqual(status, 0 if expected else 1)
            self.assertIn(expected or "reading_list: ", text + errors)

    def test_reading_list_follows_a_member_to_the_trait_above(self):
        run_file = "crates/upper/src/run.rt"
        source = LISTED[run_file]
        changed = source.replace("V: Merge", "V: Ordered").replace("{LIMIT, Merge}", "{LIMIT, Ordered}")
        status, text, errors = reading_list(self, file=run_file, old=source, new=changed)
        self.assertEqual((status, errors), (0, ""))
        self.assertEqual(text.strip().splitlines(), LIST.strip().splitlines())

    def test_reading_list_knows_the_types_of_an_impl(self):
        run_file = "crates/upper/src/run.rt"
        source = LISTED[run_file]
        changed = source.replace("pub fn answer<R: Read, V: Merge>(", "impl<V: Merge> Answers<V> {\npub fn answer<R: Read>(") + "}\n"
        status, text, errors = reading_list(self, file=run_file, old=source, new=changed)
        self.assertEqual((status, errors), (0, ""))
        self.assertEqual(text.strip().splitlines(), LIST.strip().splitlines())

    def test_reading_list_names_what_nothing_explains(self):
        status, text, errors = reading_list(self, file="crates/lower/specs/Weights.antt", old="suc (total n)", new="suc (totals n)")
        self.assertEqual((status, text, errors), (1, "", "reading_list: lower/specs/Weights: more: nothing explains totals\n"))

    def test_reading_list_names_two_definitions_of_one_name(self):
        status, text, errors = reading_list(self, "--doubles")
        self.assertEqual((status, errors, text.splitlines()[0]), (1, "", "total: lower/specs/Weights, upper/specs/Answers"))
        status, text, errors = reading_list(self, "--doubles", file="crates/lower/specs/Weights.antt", old="total", new="count")
        self.assertEqual((status, text.splitlines()), (0, ["0 names stand for two definitions"]))

    def test_steps_of_reading_have_each_file_of_the_list_once(self):
        self.assertEqual(sorted(file for _, files in steps_of_reading() for file in files), sorted(definitions_of(self)))

    def test_steps_of_reading_have_their_numbers_of_lines(self):
        for count, files in steps_of_reading():
            with self.subTest(files=files):
                self.assertEqual(count, sum(len((TOP / f"crates/{file}.antt").read_text().splitlines()) for file in files))

    def test_sum_of_the_steps_of_reading_is_that_of_the_document(self):
        steps = list(steps_of_reading())
        self.assertIn(f"{sum(count for count, _ in steps):,} lines in {sum(len(files) for _, files in steps)} files", (TOP / "docs/VERIFYING.md").read_text())

    def test_names_of_the_theorem_are_defined_in_their_files(self):
        run_file = "bt_shell/src/script_run.rt"
        roots = [f"{run_file}:{name}" for name in ("replies_to", "run_script", "run_commands")]
        kept = ["bt_durable/src/keeping.rt:serve_and_keep", "bt_durable/src/once.rt:run_once", "bt_engine/src/table_service.rt:exchange", "bt_journal/src/store.rt:open", "bt_file/src/host_file.rt:open"]
        files = definitions_of(self, *roots, "bt_engine/src/serving.rt:serve_table", *kept)
        named = re.findall(r"^\| .+ \| `(\w+)` \| (\S+) \|$", (TOP / "docs/THEOREM.md").read_text(), re.MULTILINE)
        self.assertGreater(len(named), 30)
        self.assertEqual([(name, file) for name, file in named if name not in files.get(file, [])], [])
