"""Scripts that a loop makes, too long to be stored: trees of seven levels, loads of many records, random batches. Their replies come from the plain model."""

import random
from collections.abc import Callable, Iterator

Lines = Iterator[str]


def deep_tree_of_upserts() -> Lines:
    """A row for each of 4,096 keys, and an upsert of each in one batch, in nodes of few children."""
    keys = range(1, 4097)
    yield from ["table 4 3 2 1 id:int qty:int", "load", "id,qty", *(f"{key},0" for key in keys), ".", "image primary"]
    yield from ["batch", *(f"ups {key},add,qty,1" for key in keys), "end", "image primary"]


def load_of_many_records() -> Lines:
    """More records than a piece has. Two loads are refused for records far from the start: for a wrong flag, and for a key that an earlier record has. The
    wrong numbers of fields before the wrong flag, and the repeated key after the first one, are not named."""
    records = [f"{'true' if place % 2 else 'false'},{7 * (place + 1) % 1103}" for place in range(1100)]
    wrong = {0: "true", 1049: "false,1,", 1089: "maybe,1", 1094: "0,1"}
    repeated = {1029: "false,557", 1098: "false,21"}
    yield "table 16 8 64 2 even:flag id:int"
    for changes in (wrong, repeated, {}):
        yield from ["load", "even,id", *(changes.get(place, line) for place, line in enumerate(records)), "."]
    yield from ["sums primary 1 id", "go", "scan primary", "from true,1080", "go"]


def six_levels() -> Lines:
    """Keys in an order that jumps, then small batches that reach single leaves."""
    yield from ["table 4 2 2 1 id:int n:int", "batch", *(f"put {919 * place % 1000},{place}" for place in range(520)), "end"]
    for keys in ((1, 2, 3), (4, 5, 999), (0, 500, 501)):
        yield from ["batch", *(f"ups {key},add,n,{key}" for key in keys), "end"]
    yield from ["batch", "del 6", "del 7", "put 8,8", "end", "batch", *(f"ups {key},add,n,{key}" for key in (9, 700, 800)), "end"]
    yield from ["image primary", "get 999", "get 7", "get 8"]


def flush_through_seven_levels() -> Lines:
    """A few messages for the keys of both ends of a tree of seven levels."""
    yield from ["table 4 1 2 1 id:int qty:int", "batch", *(f"put {key},0" for key in range(1, 2051)), "end"]
    yield from ["batch", "put 5,1", "put 5,2", "put 6,3", "put 900,4", "put 900,5", "put 2050,6", "end", "image primary"]


CITIES = ("Oslo", "Bergen", "Alta", "Molde", '""', '"Oslo, west"')


def city_messages(dice: random.Random, count: int) -> Lines:
    """Of a table of ids, cities and quantities, over few keys."""
    for _ in range(count):
        key, quantity = dice.randrange(60), dice.randrange(-9, 99)
        changes = [f"add,qty,{quantity}", f"set,city,{dice.choice(CITIES)}"]
        yield dice.choice([f"put {key},{dice.choice(CITIES)},{quantity}", f"ups {key},{dice.choice(changes)}", f"del {key}"])


def built_between_batches() -> Lines:
    """Two indexes are built by steps, with a batch after each, a drain and a rebuild."""
    dice = random.Random(1)
    yield "table 4 2 2 1 id:int city:text qty:int"
    yield from ["batch", *city_messages(dice, 60), "end", "batch", *city_messages(dice, 60), "end"]
    yield from ["index by_city on city include qty where qty >= 30", "index by_qty on qty"]
    steps = [f"build {name} {dice.randrange(3, 9)}" for _ in range(4) for name in ("by_city", "by_qty")]
    for step in [*steps, "drain by_qty", "rebuild by_city", "build by_city 99", "build by_qty 99"]:
        yield from [step, "batch", *city_messages(dice, dice.randrange(6, 13)), "end", "image by_city"]
    yield from [*(f"image {name}" for name in ("primary", "by_qty")), "scan by_city", "go", "scan by_qty", "go"]
    yield from ["sums by_city 1 qty", "go", "sums by_qty 1 id", "from 30", "to 60", "go"]


def batches_in_ranges() -> Lines:
    """Batches of so many lines that they are read into ranges of keys: of few keys, whose messages are in one range, and of many. One batch is refused, for a
    line of its last piece that comes after others with higher refusals."""
    dice = random.Random(4)

    def messages(keys: int) -> list[str]:
        drawn = [f"{dice.choice(['a', 'b,c', ''])},{dice.randrange(-keys, keys)}".replace("b,c", '"b,c"') for _ in range(16_500)]
        changes = (lambda key: f"put {key},{dice.randrange(9)}", lambda key: f"ups {key},add,n,1", lambda key: f"del {key}")
        return [dice.choices(changes, (6, 3, 1))[0](key) for key in drawn]

    yield from ["table 16 256 128 2 t:text id:int n:int", "index by_n on n", "build by_n 1"]
    few, many = messages(9), messages(1 << 50)
    refused = [*many[:40], "put a,1", *many[41:9_000], "del a", *many[9_001:16_400], "ups a,x,add,n,1", *many[16_401:]]
    for lines in (few, refused, many):
        yield from ["batch", *lines, "end", "sums by_n 1 id", "go"]
    yield from ["image primary", "image by_n"]


def batches_in_pieces() -> Lines:
    """Batches of so many bytes that workers read their lines in pieces. Their lines have line ends of both kinds, spaces before them, blank lines between them,
    and texts that are words of the language. One batch has a wrong line among its last ones, and the end of the script cuts off the last one."""
    dice = random.Random(5)

    def lines(count: int) -> list[str]:
        texts = ("end", "go", " end", '"a,b"', '""', "batch", "." * 60)
        changes = (lambda key: f"put {key},{dice.choice(texts)}", lambda key: f"  ups {key},set,t,{dice.choice(texts)}", lambda key: f"del {key}")
        return [dice.choice(["", "  ", "\r"]) if dice.random() < 0.1 else dice.choices(changes, (6, 3, 1))[0](dice.randrange(9_000)) + dice.choice(["", "\r"]) for _ in range(count)]

    yield "table 16 256 64 1 id:int t:text"
    for count, wrong in ((9_000, []), (16_000, []), (16_000, [" end", "del 1"]), (9_000, ["put"]), (10_000, [])):
        yield from ["batch", *lines(count), *wrong, "end\r"]
    yield from ["scan primary", "go", "image primary", "batch", *lines(10_000)]


def dressed(dice: random.Random, kind: str) -> str:
    """A random value of a kind, in one of the forms that a field may have."""
    if kind == "flag":
        plain = "".join(dice.choice([letter, letter.upper()]) for letter in dice.choice(["true", "false"]))
    else:
        plain = "0" * dice.choice([0, 0, 0, 30]) + str(dice.randrange(3000) if kind == "text" else dice.getrandbits(62))
    cut = dice.randrange(len(plain) + 1)
    return dice.choice([plain, plain, f'"{plain}"', f'"{plain[:cut]}"{plain[cut:]}'])


def random_batches(table: str, *, seed: int, batches: int) -> Lines:
    """Puts, and few dels and upserts, of random keys. The first columns are the key."""
    dice = random.Random(seed)
    words = table.split()
    columns = [word.split(":") for word in words[5:]]
    keys, last = int(words[4]), columns[-1]
    yield table
    used = [",".join(dressed(dice, kind) for _, kind in columns[:keys])]
    for _ in range(batches):
        yield "batch"
        for _ in range(700):
            key = ",".join(dressed(dice, kind) for _, kind in columns[:keys])
            used.append(key)
            yield f"put {key},{','.join(dressed(dice, kind) for _, kind in columns[keys:])}"
            if dice.random() < 0.3:
                yield dice.choice([f"del {dice.choice(used)}", f"ups {dice.choice(used)},set,{last[0]},{dressed(dice, last[1])}"])
        yield "end"
    yield from ["image primary", "scan primary", "go"]


def random_texts() -> Lines:
    return random_batches("table 4 50 2 1 qty:int t:int id:flag d:text n:text", seed=2, batches=2)


def random_compound_keys() -> Lines:
    return random_batches("table 5 50 2 2 set:int on:flag z9:int a:int id:text", seed=3, batches=3)


# Those whose batches crates/test_cuts flushes in pieces: their trees are cut into jobs at several depths.
FOR_CUTS: list[Callable[[], Lines]] = [flush_through_seven_levels, random_texts, random_compound_keys]
ALL: list[Callable[[], Lines]] = [deep_tree_of_upserts, load_of_many_records, six_levels, built_between_batches, batches_in_ranges, batches_in_pieces, *FOR_CUTS]


def script_of(lines: Callable[[], Lines]) -> bytes:
    return "".join(f"{line}\n" for line in lines()).encode()
