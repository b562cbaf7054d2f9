"""The words of the command line: options on both sides of their ranges, words that are refused, and help."""

from cases.table import Case, Text, Viewed, block, of_lines

MORE = "\n\nFor more information, try '--help'.\n"
RANGES = {
    "workers": "a number from 1 to 64",
    "depth": "a number from 0 to 13",
    "small": "a number from 0 to 18446744073709551615",
    "rows": "a number from 1 to 4294967296",
    "hash": "fnv or plain",
    "format": "classic, csv, json or table",
    "viewers": "a number from 1 to 16",
    "shots": "a number from 1 to 1000",
}
FILES = {"S": "publish\n", "P": "", "--workers": "publish\n"}


def case(line, **more):
    return Case(line or "an empty word", line.split(" "), FILES, **more)


def job(line):
    return case(line, output="line 1 refused 1\n")


def viewed(line):
    return case(line, output="line 1 refused 1\nviewers refused 1\n")


def beyond(line, option):
    return case(line, status=2, errors=f"error: '--{option}' takes {RANGES[option]}{MORE}")


def refused(line, has=""):
    return case(line, status=2, errors=Text("error: ", has))


def help(line, has):
    return case(line, output=Text(has=has))


OPTIONS = [
    job("run S P"),
    job("run --workers 7 --depth=13 S --small 5 --hash plain --rows 9 P P"),
    job("run S --workers 1"),
    job("run S --workers 64"),
    beyond("run S --workers 0", "workers"),
    beyond("run S --workers 65", "workers"),
    beyond("run S --workers=-1", "workers"),
    beyond("run S --workers +1", "workers"),
    beyond("run S --workers=", "workers"),
    beyond("run S --workers one", "workers"),
    job("run S --workers 007"),
    job("run S --depth 0"),
    job("run S --depth 13"),
    beyond("run S --depth 14", "depth"),
    beyond("run S --depth 256", "depth"),
    job("run S --small 0"),
    job("run S --small 18446744073709551615"),
    beyond("run S --small 18446744073709551616", "small"),
    job("run S --rows 1"),
    job("run S --rows 4294967296"),
    beyond("run S --rows 0", "rows"),
    beyond("run S --rows 4294967297", "rows"),
    job("run S --hash fnv"),
    job("run S --hash plain"),
    beyond("run S --hash md5", "hash"),
    beyond("run S --hash FNV", "hash"),
    job("run S --format classic"),
    job("run S --format table"),
    case("run S --format csv", output="line,1,refused,1,NoTable\n"),
    case("run --format=json S P", output='{"line":1,"refused":1,"name":"NoTable"}\n'),
    beyond("run S --format xml", "format"),
    beyond("run S --format JSON", "format"),
    beyond("run S --format=", "format"),
    # Of two values out of range the first is told, in the order workers, depth, small, rows, hash, format.
    beyond("run S --format xml --hash md5", "hash"),
    beyond("run S --hash md5 --rows 0", "rows"),
    beyond("run S --rows 0 --depth 14", "depth"),
    job("run -- --workers"),
    viewed("live S --query Q"),
    viewed("live S --query="),
    viewed("live S --query Q --viewers 1 --shots 1"),
    viewed("live --workers 7 --query=Q S --viewers 16 --shots 1000 P"),
    viewed("live --as-they-come S --query Q"),
    beyond("live S --query Q --viewers 0", "viewers"),
    beyond("live S --query Q --viewers 17", "viewers"),
    beyond("live S --query Q --shots 0", "shots"),
    beyond("live S --query Q --shots 1001", "shots"),
    # The options of viewers are looked at behind those of a run, viewers first.
    beyond("live S --query Q --shots 0 --viewers 0", "viewers"),
    beyond("live S --query Q --viewers 0 --hash md5", "hash"),
    beyond("live S --query Q --viewers 0 --format xml", "format"),
]

REFUSED = [
    refused("run", "the following required arguments were not provided:\n  <SCRIPT>\n"),
    refused("run --workers 1"),
    refused("run S --workers"),
    refused("run S --workers 1 --workers 1"),
    refused("run S --format"),
    refused("run S --format csv --format csv"),
    refused("--format csv run S"),
    refused("run S --speed 1"),
    refused("run S -w 1"),
    refused("run S --strict --strict"),
    refused("run S --explain --explain"),
    refused("run S --explain=true"),
    refused("--explain run S"),
    refused("run S --progress --progress"),
    refused("run S --as-they-come"),
    refused("live S --query Q --as-they-come --as-they-come"),
    refused("live S --query Q --as-they-come=true"),
    refused("run S --progress=true"),
    refused("--progress run S"),
    refused("run S --strict=true"),
    refused("run S --stric"),
    refused("--strict run S"),
    refused("run --strict", "the following required arguments were not provided:\n  <SCRIPT>\n"),
    refused("walk S"),
    refused("live S", "the following required arguments were not provided:\n  --query <QUERY>\n"),
    refused("live --query Q"),
    refused("live S --query"),
    refused("live S --query Q --query Q"),
    refused("live S --query Q --viewers 1 --viewers 1"),
    refused("run S --query Q"),
    refused("run S --viewers 1"),
    refused(""),
    refused("S"),
    refused("run --version"),
]

TOP = "\nUsage: olap <COMMAND>\n"
RUN = "\nUsage: olap run [OPTIONS] <SCRIPT> [PART]...\n"
LIVE = "\nUsage: olap live [OPTIONS] --query <QUERY> <SCRIPT> [PART]...\n"

HELP = [
    case("--version", output="olap 1.14.1 (rattle-kit-13f logic dac8208d650f15bf)\n"),
    case("-V", output="olap 1.14.1 (rattle-kit-13f logic dac8208d650f15bf)\n"),
    help("--help", TOP),
    help("-h", TOP),
    help("help", TOP),
    help("run --help", RUN),
    help("help run", RUN),
    help("run --help", "\nExample:\n"),
    help("run --help", ", 1 to 64 [default: 1]\n"),
    help("run --help", ", 0 to 13 [default: 1]\n"),
    help("run --help", ", 1 to 4294967296 [default: 4294967296]\n"),
    help("run --help", " are cut [default: 0]\n"),
    help("run --help", "--format <FORM> "),
    help("live --help", "--format <FORM> "),
    help("run --help", "csv, json or table [default: classic]\n"),
    help("run --help", "--strict "),
    help("live --help", "--strict "),
    help("run --help", "--explain "),
    help("live --help", "--explain "),
    help("run --help", "--progress "),
    help("live --help", "--progress "),
    help("live --help", "--as-they-come "),
    help("live --help", LIVE),
    help("help live", LIVE),
    help("live --help", "\nExample:\n"),
    help("live --help", ", 1 to 16 [default: 2]\n"),
    help("live --help", ", 1 to 1000 [default: 1]\n"),
]

# What the words say, by a script that shows it: how many rows the draft may have, the hash, which file is which part, and how
# many viewers there are and how often they are asked. The parts have a fault each, P in its record 1 and Q in its record 2.
# By the hash `fnv` the keys 1 and 257 have no digit in common at the front, and by `plain` one.
SHOWN = "SELECT COUNT(*) FROM T"
SHOWS = {"P": "K\nx\n", "Q": "K\n5\nx\n"}
SHAPES = {"fnv": ["- 2"], "plain": ["- 2", "1 2"]}


def fault(part, parts):
    """What a load of the part gives."""
    return f"refused 6 part {part} record {'_PQ'.index(parts[part - 1])}" if part <= len(parts) else 5


def of_job(words, rows=3, hash="fnv", parts="", viewers=None, shots=None):
    """The words beside the job that they say."""
    lines = [
        "table T (K INT KEY)",
        *[f"put {key}" if place < rows else (f"put {key}", 9) for place, key in enumerate((1, 257))],
        ("load 1", fault(1, parts)),
        ("load 2", fault(2, parts)),
        "publish",
        ("shape", block(1, *(SHAPES[hash] if rows > 1 else []))),
    ]
    text, output = of_lines(lines)
    if viewers:
        editions = {0: ["COUNT(*)", "0"], 1: ["COUNT(*)", str(min(rows, 2))]}
        output = Viewed(output=output, viewers=viewers, shots=shots, editions=editions)
    return Case(f"{' '.join(words)}, by what it shows", words, {**SHOWS, "S": text}, output=output)


JOBS = [
    of_job(["run", "S"]),
    of_job(["run", "S", "P"], parts="P"),
    of_job(["run", "S", "P", "Q"], parts="PQ"),
    of_job(["run", "S", "Q", "P"], parts="QP"),
    of_job(["run", "S", "Q", "Q"], parts="QQ"),
    of_job(["run", "--", "S", "Q"], parts="Q"),
    of_job(["run", "S", "--rows", "1"], rows=1),
    of_job(["run", "S", "--rows", "2"], rows=2),
    of_job(["run", "--hash", "plain", "S"], hash="plain"),
    of_job(["run", "--hash=fnv", "S"]),
    of_job(["run", "--workers", "7", "S", "--depth=13", "P", "--small", "5", "--hash", "plain", "Q", "--rows=2"], 2, "plain", "PQ"),
    of_job(["live", "S", "--query", SHOWN], viewers=2, shots=1),
    of_job(["live", "--query", SHOWN, "--viewers", "1", "S", "Q"], parts="Q", viewers=1, shots=1),
    of_job(["live", "--query", SHOWN, "--viewers=16", "--shots", "3", "S"], viewers=16, shots=3),
    of_job(["live", "--shots=7", "--rows", "1", "S", f"--query={SHOWN}", "--hash=plain", "P", "P"], 1, "plain", "PP", 2, 7),
]

CASES = OPTIONS + REFUSED + HELP + JOBS
