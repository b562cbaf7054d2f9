"""The shape of the keys: which digits of their hashes they share. Where the hash is `plain`, an integer is its own hash and
a text's hash is its length."""

import random
from collections import Counter

from cases.table import block, lines, script

PLAIN = ("--hash", "plain")
# A hash has twelve digits of 5 bits and a last one of 4.
DIGITS = 13
LAST = 2**60


def zeros(front, most, number):
    """The prefixes that begin so and go on with zeros up to so many digits, which so many keys share."""
    return [f"- {number}"] + [f"{front}{'0' * more} {number}" for more in range(most - len(front) + 1)]


def shape(kind, changes, *prefixes):
    """The shape behind these changes."""
    script = [(f"table T (K {kind} KEY)", None), *[(change, None) for change in changes], ("publish", None)]
    return script + [("shape", "\n".join(("edition 1", *prefixes)))]


def puts(*keys):
    return [f"put {key}" for key in keys]


SHAPES = [
    shape("INT", []),
    shape("INT", puts(1)),
    shape("INT", puts(1, 17), "- 2"),
    shape("INT", puts(1, 33), "- 2", "1 2"),
    shape("INT", puts(1, 17, 33), "- 3", "1 2"),
    shape("INT", puts(33, 1, 65, 1), "- 3", "1 3"),
    shape("INT", puts(34, 1, 2, 33, 66), "- 5", "1 2", "2 3"),
    shape("INT", puts(11 + 10 * 32, 11 + 10 * 32 + 32**2), "- 2", "b 2", "ba 2"),
    shape("INT", puts(1 + 2 * 32, 1, 1 + 2 * 32 + 32**2), "- 3", "1 3", "12 2"),
    shape("INT", puts(31, 63), "- 2", "v 2"),
    shape("INT", puts(0, LAST), *zeros("0", DIGITS - 1, 2)),
    # the last digits are f and e, all others v
    shape("INT", puts(-1, -1 - LAST), "- 2", *(f"{'v' * more} 2" for more in range(1, DIGITS))),
    shape("INT", puts(-1, 31), "- 2", "v 2"),
    # keys that are taken out again
    shape("INT", puts(1, 33, 65) + ["delete 65"], "- 2", "1 2"),
    shape("INT", puts(1, 33, 65) + ["delete 65", "delete 33"]),
    shape("INT", puts(1, 33, 65) + ["delete 2", "delete 97"], "- 3", "1 3"),
    # keys of one hash
    shape("TEXT", puts("ab", "cd"), *zeros("2", DIGITS, 2)),
    shape("TEXT", puts("ab", "cd", "x"), "- 3", *zeros("2", DIGITS, 2)[1:]),
]

# a thousand keys of one hash, every seventh in turn
THOUSAND = [f"{number * 7 % 1_000:04}" for number in range(1_000)]
ONE_HASH = shape("TEXT", puts(*THOUSAND, *THOUSAND), *zeros("4", DIGITS, 1_000)) + [
    ("report SELECT COUNT(*), MIN(K), MAX(K) FROM T", "edition 1\nCOUNT(*) | MIN(K) | MAX(K)\n1000 | '0000' | '0999'"),
    ("delete '1000'", None),
    ("delete '0007'", None),
    ("publish", None),
    ("report SELECT COUNT(*) FROM T WHERE K <= '0007'", "edition 2\nCOUNT(*)\n7"),
]


def fnv(data):
    """FNV-1a of 64 bits."""
    hash = 14695981039346656037
    for byte in data:
        hash = (hash ^ byte) * 1099511628211 % 2**64
    return hash


def number(value, tag=b""):
    return tag + (value % 2**64).to_bytes(8, "little")


# The hash of an integer, and that of a text of ASCII.
HASHES = {
    ("plain", "INT"): lambda key: key % 2**64,
    ("plain", "TEXT"): len,
    ("fnv", "INT"): lambda key: fnv(number(key, b"\1")),
    ("fnv", "TEXT"): lambda key: fnv(number(len(key), b"\2") + key.encode()),
}


def digits(hash):
    return "".join("0123456789abcdefghijklmnopqrstuv"[hash >> 5 * place & 31] for place in range(DIGITS))


def shape_of(hashes):
    """Of all prefixes of the hashes' digits those that two of them or more share, each with their number, by their digits,
    a prefix before those that extend it."""
    shared = Counter(digits(hash)[:length] for hash in hashes for length in range(DIGITS + 1))
    return [f"{prefix or '-'} {number}" for prefix, number in sorted(shared.items()) if number > 1]


def random_integers(chance, wanted):
    """Integers of 64 bits, of which some differ from others in one or two bits alone."""
    keys = {}
    while len(keys) < wanted:
        key = chance.getrandbits(64)
        if keys and chance.random() < 0.5:
            key = chance.choice(list(keys)) % 2**64 ^ 1 << chance.randrange(64) ^ chance.randrange(2) << chance.randrange(64)
        keys[key - 2**64 if key >= 2**63 else key] = None
    return list(keys)


def random_texts(chance, wanted):
    keys = {}
    while len(keys) < wanted:
        keys["".join(chance.choices("abcxyz", k=chance.randrange(1, 40)))] = None
    return list(keys)


def random_shape(kind, hash, keys):
    """The shape of keys that are loaded, and that of those which are left when every third is taken out."""
    hash_of, gone = HASHES[hash, kind], keys[::3]
    text = f"table T (K {kind} KEY)\nload 1\npublish\nshape\n"
    text += "".join(f"delete '{key}'\n" if kind == "TEXT" else f"delete {key}\n" for key in gone) + "publish\nshape\n"
    wanted = f"line 4 {block(1, *shape_of(map(hash_of, keys)))}\n"
    wanted += f"line {6 + len(gone)} {block(2, *shape_of(hash_of(key) for key in set(keys) - set(gone)))}\n"
    part = "".join(f"{key}\n" for key in ["K", *keys])
    return script(f"the shape of random keys, {kind}, {hash}", text, wanted, [part], ("--hash", hash))


RANDOM = {"INT": random_integers(random.Random(37), 3_000), "TEXT": random_texts(random.Random(37), 3_000)}

CASES = [
    *[lines(f"shape {number}", rows, options=PLAIN) for number, rows in enumerate(SHAPES, 1)],
    lines("a thousand keys of one hash", ONE_HASH, options=PLAIN),
    *[random_shape(kind, hash, RANDOM[kind]) for hash, kind in HASHES],
]
