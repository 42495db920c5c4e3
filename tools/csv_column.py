"""A column of a CSV file: the values that its fields have in a script, and the kinds that they can be of. For tools/from_csv."""

import re
import shlex
from collections import Counter
from datetime import date
from decimal import Decimal
from typing import Callable, Iterable, Iterator, Sequence, TypeAlias

from betable import language
from betable.language import counted
from betable.reasons import value_fault
from csv_source import shown

# The number of a record, and its line, in words.
Place: TypeAlias = Callable[[int], str]

MOST_NAMED = 3  # places of one kind that are named
MOST_TEXT = language.MOST_TEXT_BYTES
UNITS = {1: "tenths", 2: "hundredths", 3: "thousandths"}

# The fields of a column, each followed by a line feed, that may all be values of a kind. Empty fields are counted separately.
SMALL_INTS = re.compile(r"(?:(?:-?[1-9][0-9]{0,17}|0)?\n)*+")
INTS = re.compile(r"(?:(?:-?[1-9][0-9]{0,18}|0)?\n)*+")
DIGITS = re.compile(r"(?:(?:-?[0-9]+)?\n)*+")
FLAGS = re.compile(r"(?:(?:true|false)?\n)*+", re.IGNORECASE)
YES_NO = re.compile(r"(?:(?:yes|no|y|n|t|f|on|off)?\n)*+", re.IGNORECASE)
EXPONENT = r"(?:[eE][+-]?[0-9]{1,3})?"
DECIMALS = {False: re.compile(rf"(?:(?:-?[0-9]+(?:\.[0-9]+)?{EXPONENT})?\n)*+"), True: re.compile(rf"(?:(?:-?[0-9]+(?:[.,][0-9]+)?{EXPONENT})?\n)*+")}
FRACTION = re.compile(r"[.,][0-9]*[1-9]")
# A date with the year last, and the time that may follow it.
DATE = re.compile(r"([0-9]{1,2})([./-])([0-9]{1,2})\2([0-9]{4})((?:,? [0-9]{1,2}:[0-9]{2}.*)?)")
DATES = re.compile(r"(?>(?>[0-9]{1,2}([./-])[0-9]{1,2}\1[0-9]{4}(?:,? [0-9]{1,2}:[0-9]{2}[^\n]*)?)?\n)*+")

# The words that --flag takes, in letters of either case.
TRUE_WORDS, FALSE_WORDS = ("true", "yes", "y", "t", "on", "1"), ("false", "no", "n", "f", "off", "0")

# Words for true and false in other languages.
FLAGS_ELSEWHERE = (
    ("wahr", "falsch"), ("ja", "nein"), ("vrai", "faux"), ("oui", "non"), ("verdadero", "falso"), ("sí", "no"), ("si", "no"), ("verdadeiro", "falso"),
    ("sim", "não"), ("vero", "falso"), ("waar", "onwaar"), ("ja", "nee"), ("ja", "nei"), ("ja", "nej"), ("sant", "usant"), ("sann", "usann"), ("sand", "falsk"),
    ("sant", "falskt"), ("tosi", "epätosi"), ("kyllä", "ei"), ("prawda", "fałsz"), ("tak", "nie"), ("pravda", "nepravda"), ("ano", "ne"), ("igaz", "hamis"),
    ("igen", "nem"), ("doğru", "yanlış"), ("evet", "hayır"), ("истина", "ложь"), ("да", "нет"), ("αληθές", "ψευδές"), ("真", "假"), ("是", "否"),
)  # fmt: skip

# Words for no value, and those that are no texts among texts.
NULL_WORDS = frozenset(map(bytes.decode, language.NULL_WORDS))
SURE_NULL_WORDS = NULL_WORDS - set(map(bytes.decode, language.NULL_WORDS_OR_TEXTS))

# A line inside of a field, or of the script, that would close the block of a load.
POINT_INSIDE = re.compile(r"\n\.(?=\r?\n)")


def fault_of(kind: str, value: str) -> str | None:
    """Why a field is no value of a kind, or None."""
    return value_fault(kind, value.encode())


class Column:
    """A column of the table: the values that its fields have in the script, and what is known of them so far."""

    def __init__(self, place: int, title: str, name: str) -> None:
        self.place, self.title, self.name = place, title, name
        self.wanted: str | None = None
        self.filling: str | None = None
        self.digits: int | None = None
        self.date: str | None = None
        self.null_words: frozenset[str] = frozenset()
        self.flag_words: dict[str, str] | None = None
        self.is_cut = self.is_mended = self.is_trimmed = self.has_decimal_commas = False
        self.values: list[str] | None = None  # of a key column all of them
        self.could_be = {"int", "digits", "decimal", "flag", "yes or no", "date"}
        self.count = self.empty = self.cut = self.mended = self.decimals = 0
        self.has_fraction = False
        # The first record, and its field, that is empty, is a word for no value, is no plain int, is a date, or is neither a number nor a flag.
        self.first_empty = self.first_null = 0
        self.odd_int: tuple[int, str] | None = None
        self.first_date: tuple[int, str] | None = None
        self.odd_one: tuple[int, str] | None = None
        # How many fields are neither numbers nor flags among those that are, and what the others could be. Which order the dates may have.
        self.odd, self.others_could_be = 0, set[str]()
        self.orders = {"D{0}M{0}Y", "M{0}D{0}Y"}
        # The different words of a column, as long as they are two.
        self.two_words: dict[str, str] | None = {}
        self.nulls: Counter[str] = Counter()
        self.taken: Counter[str] = Counter()
        self.flags: dict[str, str] = {}
        self.faults: list[tuple[int, str]] = []
        self.number_of_faults = 0

    def fault(self, record: int, sentence: str) -> None:
        self.number_of_faults += 1
        if len(self.faults) < MOST_NAMED:
            self.faults.append((record, sentence))

    def values_in_script(self, values: Sequence[str], first: int) -> list[str]:
        """The values of the column in the script, of those of the file from record `first` on."""
        values = [value.strip(" \t") for value in values] if self.is_trimmed else list(values)
        if not self.null_words.isdisjoint(values):
            self.taken.update(value for value in values if value in self.null_words)
            values = ["" if value in self.null_words else value for value in values]
        is_filled = "" in values and self.filling is not None
        if "" in values:
            self.first_empty = self.first_empty or first + values.index("")
            self.empty += values.count("")
        if self.flag_words:
            values = self.as_flags(values, self.flag_words)
        if self.digits is not None:
            values = self.scaled(values, self.digits, first)
        if self.date is not None:
            values = self.dated(values, self.date, first)
        joined = "\n".join(values) + "\n"
        self.learn(values, joined, first)
        if is_filled:
            values = [value or self.filling or "" for value in values]
        if "int" not in self.could_be:
            values = self.fitting_texts(values, joined, first)
        self.count += len(values)
        if self.values is not None:
            self.values += values
        return values

    def as_flags(self, values: list[str], words: dict[str, str]) -> list[str]:
        """The words of flags as true and false; any other word stays as it is."""
        for word in dict.fromkeys(values):
            if word not in self.flags and word.lower() in words:
                self.flags[word] = words[word.lower()]
        return [self.flags.get(value, value) for value in values]

    def scaled(self, values: list[str], digits: int, first: int) -> list[str]:
        """Decimals as ints, each with that many digits after the point; what is none stays as it is, and so does an empty field that is filled."""
        results = []
        joined = "\n".join(values) + "\n"
        if digits and re.fullmatch(rf"(?>-?[0-9]{{1,{18 - digits}}}\.[0-9]{{{digits}}}\n)*+", joined) and joined.count("\n") == len(values):
            return list(map(str, map(int, joined.replace(".", "").split())))
        for record, value in enumerate(values, first):
            if value or self.filling is None:
                value = self.scaled_value(value, digits, record)
            results.append(value)
        return results

    def scaled_value(self, value: str, digits: int, record: int) -> str:
        if not value or not self.is_decimal(value):
            hint = f" (--null {self.setting(value)} takes such as empty)" if value in NULL_WORDS else "" if value else f" (--empty {self.name}=0 fills such)"
            self.fault(record, f"is {shown(value)}, and no decimal number{hint}")
            return value
        plain = value.replace(",", ".") if self.has_decimal_commas else value
        whole, _, part = without_exponent(plain).partition(".")
        part = part.rstrip("0") if len(part) > digits else part
        if len(part) > digits:
            self.fault(record, f"is {shown(value)}, with more than {counted(digits, 'digit')} after the point (--scale {self.name}={len(part)} keeps them)")
            return value
        number = str(int(whole + part.ljust(digits, "0")))
        if len(number) > 18 and fault_of("int", number):
            self.fault(record, f"is {shown(value)}, and {shown(number)[1:-1]} as an int, which does not fit 64 bits")
        return number

    def dated(self, values: list[str], form: str, first: int) -> list[str]:
        """Dates with the year first; what is none stays as it is, and so does an empty field."""
        return [value and self.dated_value(value, form, record) for record, value in enumerate(values, first)]

    def dated_value(self, value: str, form: str, record: int) -> str:
        found = DATE.fullmatch(value)
        if found and found[2] == form[1]:
            day, month = (found[1], found[3]) if form.startswith("D") else (found[3], found[1])
            try:
                return date(int(found[4]), int(month), int(day)).isoformat() + found[5]
            except ValueError:
                pass
        hint = f" (--null {self.setting(value)} takes such as empty)" if value in NULL_WORDS else ""
        self.fault(record, f"is {shown(value)}, and no date of the form {form}{hint}")
        return value

    def fitting_texts(self, values: list[str], joined: str, first: int) -> list[str]:
        """Texts without what cannot be loaded, if that is asked for."""
        if "\n.\n" in joined or "\n.\r\n" in joined:
            values = self.without_points(values, first)
        longest = max(map(len, values))
        if longest > self.most_bytes() or (longest > MOST_TEXT // 4 and not joined.isascii()):
            values = self.short(values, first)
        return values

    def without_points(self, values: list[str], first: int) -> list[str]:
        """The values with a space after each point that is alone in a line, if that is asked for."""
        results = []
        for record, value in enumerate(values, first):
            if POINT_INSIDE.search(value) and self.is_mended:
                value, number = POINT_INSIDE.subn("\n. ", value)
                self.mended += number
            elif POINT_INSIDE.search(value):
                self.fault(record, "has a line that is '.' alone, which would close the load (--mend-points puts a space after it)")
            results.append(value)
        return results

    def most_bytes(self) -> int:
        """How long a field may be: bytes have two digits each."""
        return 2 * MOST_TEXT if self.wanted == "bytes" else MOST_TEXT

    def short(self, values: list[str], first: int) -> list[str]:
        """The values with no more bytes than a text has, if they are to be cut."""
        results, most = [], self.most_bytes()
        for record, value in enumerate(values, first):
            size = len(value.encode())
            if size > most and self.is_cut:
                value = value.encode()[:most].decode("utf-8", "ignore")
                self.cut += 1
            elif size > most:
                self.fault(record, f"has {size:,} bytes, the most are {most} (--cut {self.name} cuts such)")
            results.append(value)
        return results

    def learn(self, values: list[str], joined: str, first: int) -> None:
        """Leaves of the kinds that the column could be those that these values could be too. A word for no value is taken as empty here, and noted."""
        if self.wanted in ("int", "flag"):
            form, are_lines = DIGITS if self.wanted == "int" else FLAGS, joined.count("\n") == len(values)
            if "" in values or not are_lines or not form.fullmatch(joined) or max(map(len, values)) > 18:
                self.check(values, self.wanted, first)
        elif self.wanted == "bytes":
            self.check(values, self.wanted, first)
        elif self.digits is None and self.date is None:
            words = NULL_WORDS.intersection(values)
            if words:
                self.first_null = self.first_null or first + next(place for place, value in enumerate(values) if value in words)
                self.nulls.update(value for value in values if value in words)
                values = ["" if value in words else value for value in values]
                joined = "\n".join(values) + "\n"
            if self.could_be or self.others_could_be:
                before = self.could_be or self.others_could_be
                found = self.kinds_of(before, values, joined) if joined.count("\n") == len(values) else set()
                if not found:
                    self.others_could_be = self.find_odd_ones(before, values, first)
                elif self.odd:
                    self.others_could_be = found
                self.could_be = set() if self.odd else found
                if "int" in before - found and "decimal" in found:
                    self.odd_int = next((first + place, value) for place, value in enumerate(values) if value and not is_plain_int(value))
            if self.two_words is not None:
                self.find_words(values)

    def check(self, values: list[str], kind: str, first: int) -> None:
        """Finds the values that are not of the requested kind."""
        for record, value in enumerate(values, first):
            if (value or self.filling is None) and (fault := fault_of(kind, value)):
                self.fault(record, f"is no {kind}: {fault}{self.hint_for(value)}")

    def hint_for(self, value: str) -> str:
        """The option for a value that is not of the requested kind."""
        if not value:
            return f" (--empty {self.name}=VALUE fills such)"
        if value in NULL_WORDS:
            return f" (--null {self.setting(value)} takes such as empty)"
        if self.wanted == "flag" and value.lower() in TRUE_WORDS + FALSE_WORDS:
            return f" (--flag {self.name} takes yes and no)"
        is_fraction = self.wanted == "int" and self.is_decimal(value) and places_of(value) > 0
        return f" (--scale {self.name}={places_of(value)} takes such)" if is_fraction else ""

    def setting(self, *words: str) -> str:
        """What an option is given that takes words of this column, as a shell reads it."""
        return shlex.quote(f"{self.name}={','.join(words)}")

    def find_words(self, values: list[str]) -> None:
        """Keeps the words of a column that has no more than two, in letters of either case."""
        for value in set(values) - {""}:
            if self.two_words is not None and value.lower() not in self.two_words:
                self.two_words = {**self.two_words, value.lower(): value} if len(self.two_words) < 2 else None

    def kinds_of(self, before: set[str], values: list[str], joined: str) -> set[str]:
        """Of the kinds that the column could be those that all these values could be."""
        found = {kind for kind, form in (("flag", FLAGS), ("yes or no", YES_NO)) if kind in before and form.fullmatch(joined)}
        if "date" in before and DATES.fullmatch(joined) and all(map(self.is_date, values)):
            found.add("date")
            if self.first_date is None and any(values):
                self.first_date = next((first, value) for first, value in enumerate(values, self.count + 1) if value)
        if "int" in before and (SMALL_INTS.fullmatch(joined) or INTS.fullmatch(joined) and not has_large_int(values)):
            return found | {"int", "digits", "decimal"}
        if "digits" in before and DIGITS.fullmatch(joined):
            return found | {"digits", "decimal"}
        if "decimal" in before and DECIMALS[self.has_decimal_commas].fullmatch(joined):
            if re.search(rf"[eE]|[.,][0-9]{{{self.decimals + 1}}}", joined):
                self.decimals = max(self.decimals, max(map(places_of, values)))
            self.has_fraction = self.has_fraction or "e" in joined or "E" in joined or FRACTION.search(joined) is not None
            found.add("decimal")
        return found

    def find_odd_ones(self, before: set[str], values: list[str], first: int) -> set[str]:
        """What the column could be without the fields that are neither numbers nor flags, if most are, or would be without blanks around them; the first of
        those fields is kept."""
        are_flags = "decimal" not in before or any(is_flag(value) for value in values if value)
        if before == {"date"}:
            return set()
        is_right = is_flag if are_flags else self.is_decimal
        odd = [place for place, value in enumerate(values) if not is_right(value)]
        filled = self.count + len(values) - self.empty - self.nulls.total()
        if filled <= 2 * (self.odd + len(odd)) and not all(is_right(values[place].strip()) for place in odd):
            return set()
        self.odd_one = self.odd_one or (first + odd[0], values[odd[0]])
        self.odd += len(odd)
        rest = [value if is_right(value) else "" for value in values]
        return self.kinds_of(before, rest, "\n".join(rest) + "\n")

    def is_date(self, value: str) -> bool:
        """Whether a value is a date with the year last, or empty, in an order that those before may have too."""
        if not value:
            return True
        found = DATE.fullmatch(value)
        if found is None:
            return False
        self.orders = {order for order in self.orders if is_day(*((found[1], found[3]) if order.startswith("D") else (found[3], found[1])), found[4])}
        return bool(self.orders)

    def is_decimal(self, value: str) -> bool:
        """Whether a value is a decimal number, an int, or empty."""
        return "\n" not in value and DECIMALS[self.has_decimal_commas].fullmatch(value + "\n") is not None

    def kind(self) -> str:
        """The kind of the column, when all records are known."""
        if self.wanted or self.digits is not None:
            return self.wanted or "int"
        if self.has_gaps() or self.count == 0:
            return "text"
        found = next((kind for kind in ("int", "flag") if kind in self.could_be), "text")
        return "text" if self.empty and fault_of(found, self.filling or "") else found

    def has_gaps(self) -> bool:
        """Whether fields are empty and not filled, or words for no value."""
        return bool(self.nulls) or self.empty > 0 and self.filling is None

    def notes(self, place: Place) -> Iterator[str]:
        """What the column is now, in sentences."""
        if self.taken:
            taken = listed([f"{shown(word)} ({count:,})" for word, count in self.taken.items()])
            yield f"{self.name}: {counted(self.taken.total(), 'field is', 'fields are')} taken as empty: {taken}"
        if self.empty and self.filling is not None:
            unscaled = ", which is not scaled" if self.digits and self.filling != "0" else ""
            are = counted(self.empty, "empty field is", "empty fields are")
            yield f"{self.name}: {are} {f'stored as {self.filling}{unscaled}' if self.filling else 'left empty'}"
        if self.flags:
            found = {flag: listed([shown(word) for word, as_flag in self.flags.items() if as_flag == flag]) for flag in ("true", "false")}
            yield f"{self.name}: flags, {' and '.join(f'{flag} for {words}' for flag, words in found.items() if words)}"
        if self.digits is not None:
            yield f"{self.name}: decimals, stored as ints {f'times {10**self.digits}' if self.digits else 'without digits after the point'}"
        elif self.date is not None:
            yield f"{self.name}: dates, stored with the year first"
        elif not self.wanted and self.kind() == "text":
            yield from self.reasons_for_text(place)
        if self.cut:
            yield f"{self.name}: {counted(self.cut, 'text is', 'texts are')} cut to {MOST_TEXT} bytes"
        if self.mended:
            yield f"{self.name}: a space is put after {counted(self.mended, 'point that is alone in its line', 'points that are alone in their lines')}"

    def reasons_for_text(self, place: Place) -> Iterator[str]:
        """Why a column that looks like another kind is text, and the options that make it one."""
        name, gaps = self.name, self.gaps(place)
        if self.empty + self.nulls.total() == self.count:
            if self.count and self.has_gaps():
                yield f"{name}: all fields are empty{' or ' + self.words_found() if self.nulls else ''}, kept as text"
        elif {"int", "flag"} & self.could_be:
            kind, value = ("int", "0") if "int" in self.could_be else ("flag", "false")
            if gaps:
                make = "make" if self.nulls and self.filling is None else "makes"
                yield f"{name}: {kind}s, but {gaps}: kept as text; {self.options_for_gaps(value)} {make} it {kind}"
            else:
                yield f"{name}: {kind}s, but the filling of empty fields is {shown(self.filling or '')}: kept as text"
        elif "yes or no" in self.could_be:
            options = f"with {self.options_for_gaps('false')} " if gaps else ""
            yield f"{name}: yes and no{', but ' + gaps if gaps else ''}, kept as text; --flag {name} {options}makes flags of them"
        elif self.odd_int and "decimal" in self.could_be:
            yield self.reason_for_numbers(place, gaps, self.odd_int)
        elif "date" in self.could_be and self.first_date:
            yield self.reason_for_dates(place, *self.first_date)
        elif pair := self.words_elsewhere():
            options = f"with {self.options_for_gaps('false')} " if gaps else ""
            yield f"{name}: {shown(pair[0])} and {shown(pair[1])}, kept as text; --flag {self.setting(*pair)} {options}makes flags of them"
        elif self.odd_one:
            yield self.reason_for_odd_ones(place, *self.odd_one)
        elif words := [word for word in self.nulls if word in SURE_NULL_WORDS]:
            number = sum(self.nulls[word] for word in words)
            are = f"{counted(number, 'field is', 'fields are')} {listed(map(shown, words), 'or')}"
            yield f"{name}: {are}, kept as text; --null {self.setting(*words)} takes such as empty"

    def reason_for_odd_ones(self, place: Place, record: int, value: str) -> str:
        """Why a column of numbers or flags is text: one field, or some, that are none."""
        others = self.others_could_be
        are_flags = "flag" in others
        said = f"{self.name}: text, as {place(record)} has {shown(value)}, which is neither {'true nor false' if are_flags else 'an int nor a decimal'}"
        if value.strip() != value:
            return f"{said}; --trim drops spaces around fields"
        right = self.count - self.empty - self.nulls.total() - self.odd
        if not others or right < 9 * self.odd:
            return said
        kind, option = ("ints", "--kind {}=int") if "int" in others else ("decimals", f"--scale {{}}={self.decimals}")
        if are_flags:
            kind, option = "flags", "--kind {}=flag"
        more = f", and {counted(self.odd - 1, 'other record has', 'other records have')} such" if self.odd > 1 else ""
        return f"{said}{more}; {right:,} records have {kind}, and {option.format(self.name)} names those that have none"

    def reason_for_dates(self, place: Place, record: int, value: str) -> str:
        """Why dates with the year last are not in their order, and the option that puts the year first."""
        separator = "".join(letter for letter in value[:3] if not letter.isdigit())[:1]
        options = [f"--date {self.name}={order.format(separator)}" for order in sorted(self.orders)]
        order = "year last" if len(options) > 1 else "day first" if "=D" in options[0] else "month first"
        either = options[0] if len(options) == 1 else f"{options[0]}, or {options[1]} if the month is first,"
        where = f"the first {shown(value, 30)} in {place(record)}"
        return f"{self.name}: dates with the {order}, {where}, kept as text: their order is not that of the days; {either} puts the year first"

    def words_elsewhere(self) -> tuple[str, str] | None:
        """The two words of the column, if they are true and false in another language."""
        found = self.two_words or {}
        return next(((found[yes], found[no]) for yes, no in FLAGS_ELSEWHERE if found.keys() == {yes, no}), None)

    def reason_for_numbers(self, place: Place, gaps: str, odd: tuple[int, str]) -> str:
        """Why a column of numbers is text: numbers that are too large, leading zeros, or decimals."""
        name, (record, value) = self.name, odd
        options, where = self.options_for_gaps("0"), f"the first {shown(value, 30)} in {place(record)}"
        if "digits" in self.could_be and fault_of("int", value):
            return f"{name}: numbers that do not fit 64 bits, {where}, kept as text"
        if "digits" in self.could_be:
            filling = f"with {options} " if gaps else ""
            return f"{name}: digits of which an int would lose the zeros, {where}, kept as text; --kind {name}=int {filling}makes it int"
        decimals = self.decimals if self.has_fraction else 0
        unit = f"ints of {UNITS.get(decimals, f'10^-{decimals}')}" if decimals else "ints of them"
        filling = f", with {options}, as {gaps}" if gaps else ""
        scale = f"--scale {name}={decimals} makes {unit}{filling}" if decimals <= 18 else f"with {decimals} digits after the point, and an int has room for 18"
        return f"{name}: decimals, {where}, kept as text; {scale}"

    def gaps(self, place: Place) -> str:
        """Which fields are empty and not filled, or words for no value, in words; the empty text if there are none."""
        found = []
        if self.empty and self.filling is None:
            found.append(f"{counted(self.empty, 'field is', 'fields are')} empty, {'the first ' if self.empty > 1 else ''}in {place(self.first_empty)}")
        if self.nulls:
            number = self.nulls.total()
            are = counted(number, "field is", "fields are")
            found.append(f"{are} {self.words_found()}, {'the first ' if number > 1 else ''}in {place(self.first_null)}")
        return ", and ".join(found)

    def words_found(self) -> str:
        return listed(map(shown, self.nulls), "or")

    def options_for_gaps(self, value: str) -> str:
        """The options that fill what is empty or a word for no value."""
        null = [f"--null {self.setting(*self.nulls)}"] if self.nulls else []
        empty = [f"--empty {self.name}={value}"] if self.has_gaps() and self.filling is None else []
        return " ".join(null + empty)

    def refusals(self, place: Place) -> Iterator[str]:
        """Why the column cannot be loaded, in sentences."""
        for record, sentence in self.faults:
            yield f"{self.name} of {place(record)} {sentence}"
        if self.number_of_faults > len(self.faults):
            yield f"{self.name} of {counted(self.number_of_faults - len(self.faults), 'other record')} too"


def listed(words: Iterable[str], joining: str = "and") -> str:
    """Words as a list in a sentence."""
    *others, last = [*words] or [""]
    return f"{', '.join(others)} {joining} {last}" if others else last


def without_exponent(number: str) -> str:
    """A decimal number as one without an exponent."""
    return format(Decimal(number).normalize(), "f") if "e" in number or "E" in number else number


def places_of(value: str) -> int:
    """How many digits a decimal number has after its point."""
    return len(without_exponent(value.replace(",", ".")).partition(".")[2])


def is_day(day: str, month: str, year: str) -> bool:
    try:
        date(int(year), int(month), int(day))
    except ValueError:
        return False
    return True


def has_large_int(values: list[str]) -> bool:
    return max(map(len, values)) > 18 and any(len(value) > 18 and fault_of("int", value) for value in values)


def is_plain_int(value: str) -> bool:
    return INTS.fullmatch(value + "\n") is not None and not fault_of("int", value)


def is_flag(value: str) -> bool:
    return "\n" not in value and FLAGS.fullmatch(value + "\n") is not None
