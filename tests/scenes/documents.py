"""The documents beside the sources: that what the sources have stands in the documents. The files are read as texts, by their lines
and words, and nothing of them is proved or built."""
import re
import sys

from scenes.running import TOP, Failed, named, run

sys.path.insert(0, str(TOP / "tools"))

from citing import Sources, crates_of
from defining import DOCUMENT, WORDS, document
from drawing import HOUSE, PARTS, PARTS_TEXT, PICTURES, house, parts
from entries import Refused
from house import rooms_of
from promising import PROMISES, promises

MOST_WORDS = {"README.md": 2500, PROMISES: 5000}


def cells_of(line):
    return [cell.strip() for cell in re.split(r"(?<!\\)\|", line.strip().strip("|"))]


def section(text, title):
    """What stands below a heading, up to the next one of its kind."""
    found = re.search(rf"^(#+) {re.escape(title)}\n(.*?)(?=^\1 |\Z)", text, re.M | re.S)
    if not found:
        raise Failed(f"there is no heading {title!r}")
    return found[2]


def rows_of(text):
    """The cells of each row of the tables in a text, without their heads."""
    rows = [cells_of(line) for line in text.splitlines() if line.startswith("|")]
    rules = {at for at, row in enumerate(rows) if set("".join(row)) == {"-"}}
    return [row for at, row in enumerate(rows) if at not in rules and at + 1 not in rules]


def first_table(text):
    return rows_of(re.search(r"(?:^\|.*\n)+", text, re.M)[0])


def quoted(cell):
    return re.findall(r"`([^`]+)`", cell)


def files_of(cell):
    """The files that a row names. One without its folder stands beside the first."""
    first, *others = quoted(cell)
    folder = first.rsplit("/", 1)[0]
    return [first, *(file if "/" in file else f"{folder}/{file}" for file in others)]


def nothing_is_missing(what, missing):
    if missing:
        raise Failed(f"{what}: {', '.join(sorted(missing))}")


def check_definitions(sources):
    if sources.text(DOCUMENT) != document(sources):
        raise Failed(f"{DOCUMENT} isn't what the sources say: tools/definitions writes it anew")


def refused(sources, why, write=document):
    """What a document or a picture can't be made of, with the first reason."""
    try:
        write(sources)
    except Refused as reason:
        if reason.args[0] != why:
            raise Failed(f"it is refused since {reason.args[0]}, and not since {why}") from None
        return
    raise Failed(f"it is written, though {why}")


def check_crates(sources):
    rows = {name for row in rows_of(section(sources.text("docs/ARCHITECTURE.md"), "The crates")) for name in quoted(row[0])}
    nothing_is_missing("docs/ARCHITECTURE.md has no row for", set(crates_of(sources)) - rows)
    nothing_is_missing("crates.txt has no line for", rows - set(crates_of(sources)))


def check_order(sources):
    """The rooms, from below: each crate stands on none but those above it in their tables."""
    rows = [quoted(row[0])[0] for row in rows_of(section(sources.text("docs/ARCHITECTURE.md"), "The crates"))]
    above = {crate: set(rows[:at]) for at, crate in enumerate(rows)}
    lines = [line.split(":") for line in sources.text("crates.txt").splitlines() if line[:1].isalpha()]
    late = {f"{lower} above {crate}" for crate, below in lines for lower in below.split() if lower in above and lower not in above.get(crate, ())}
    nothing_is_missing("docs/ARCHITECTURE.md hasn't", late)


def check_list(sources):
    """That crates.txt goes by room: a comment for each, and its crates in the order of its table."""
    listed = [room or crate for room, crate in re.findall(r"^# ([A-Z][a-z]+(?: [a-z]+)*)$|^(ext_\w+):", sources.text("crates.txt"), re.M)]
    wanted = [one for room, crates in rooms_of(sources).items() for one in (room, *crates)]
    if listed != wanted:
        raise Failed(f"crates.txt goes by {listed}, and docs/ARCHITECTURE.md by {wanted}")


def check_floors(sources):
    """The picture of the crates: each is one floor above the highest that it stands on."""
    floors = re.findall(r'<g id="floor-(\d+)">(.*?)</g>', sources.text(HOUSE), re.S)
    shown = {f"ext_{name}": int(floor) for floor, drawn in floors for name in re.findall(r">([a-z_]+)</text>", drawn)}
    lines = [line.split(":") for line in sources.text("crates.txt").splitlines() if line[:1].isalpha()]
    wanted = {}
    for name, below in lines:
        wanted[name] = 1 + max((wanted[crate] for crate in below.split() if crate in wanted), default=0)
    nothing_is_missing(f"{HOUSE} has on another floor", {name for name in wanted.keys() | shown.keys() if wanted.get(name) != shown.get(name)})


def check_promises(sources):
    if sources.text(PROMISES) != promises(sources):
        raise Failed(f"{PROMISES} isn't what the sources say: tools/promises writes it anew")


def check_pictures(sources):
    nothing_is_missing("tools/pictures draws anew", {path for path, draw in PICTURES.items() if sources.text(path) != draw(sources)})


def check_refusals(sources):
    """The number and the word of each refusal, as the definitions of its line have them."""
    text = sources.text("crates/ext_cmd/specs/Refusals.antt")
    numbers = dict(re.findall(r"^refusal_number \(?(\w+)[^=]*= (\d+)$", text, re.M))
    words = dict(re.findall(r'^refusal_details \(?(\w+)[^=]*=\s+codes "([a-z-]+) ?"', text, re.M))
    if not numbers or numbers.keys() != words.keys():
        raise Failed(f"the refusals are {numbers}, and their words {words}")
    rows = {(row[0], quoted(row[1])[0].split()[0]) for row in rows_of(section(sources.text("docs/FORMATS.md"), "Commands")) if row[0].isdigit()}
    wanted = {(numbers[one], words[one]) for one in numbers}
    nothing_is_missing("docs/FORMATS.md has no row for", {" ".join(one) for one in wanted - rows})
    nothing_is_missing("no refusal is", {" ".join(one) for one in rows - wanted})


def check_publishing(sources):
    """The refusals and the statuses of the program that publishes, as their definitions have them."""
    check_program(sources, "Publishing", "publishing", "pub", ("ext_published", "ext_publish", "ext_pubcli"))


def check_erofs(sources):
    """The same of the program that writes EROFS images."""
    check_program(sources, "EROFS images", "EROFS images", "image", ("ext_mount", "ext_mount", "ext_eroscli"))


def check_program(sources, title, what, begin, crates):
    """The rows of a section, by the crates that define the refusals and the statuses, and that tell these. Names of definitions begin so."""
    text = section(sources.text("docs/FORMATS.md"), title)
    refusals, statuses = (first_table(text[text.index(head) :]) for head in ("| number |", "| status of the process |"))
    replies, status, ending = (f"crates/{crate}/{path}" for crate, path in zip(crates, ("specs/Replies.antt", "specs/Status.antt", "src/ending.rt")))
    specs = sources.text(replies)
    numbers = dict(re.findall(rf"^{begin}_refusal_number \(?(\w+)[^=]*= (\d+)$", specs, re.M))
    words = dict(re.findall(rf'^{begin}_refusal_details \(?(\w+)[^=]*= codes "([a-z -]+?) ?"', specs, re.M))
    same_rows(f"refusals of {what}", {(row[0], re.sub(r" [A-Z]+$", "", quoted(row[1])[0])) for row in refusals}, numbers, words)
    numbers = dict(re.findall(rf"^{begin}_status_number \(?(\w+)[^=]*= (\d+)$", sources.text(status), re.M))
    words = {"Done": "", "Refused": "", **lines_of_statuses(sources.text(ending))}
    told = {(row[0], "".join(quoted(row[1])).removeprefix("hostext: ").removesuffix(" PLACE")) for row in statuses}
    same_rows(f"statuses of {what}", told, numbers, words)


def same_rows(what, rows, numbers, words):
    """That rows have these numbers with these words, and no other."""
    if not numbers or numbers.keys() != words.keys():
        raise Failed(f"the {what} are {numbers}, and their words {words}")
    wanted = {(numbers[one], words[one]) for one in numbers}
    nothing_is_missing(f"docs/FORMATS.md lacks of the {what}", {" ".join(one) for one in wanted - rows})
    nothing_is_missing(f"docs/FORMATS.md has besides of the {what}", {" ".join(one) for one in rows - wanted})


def lines_of_statuses(text):
    """The words of each status on standard error."""
    return dict(re.findall(r'Status::(\w+)[^=\n]*=> \S*print\S*"hostext: ([a-z ]+?)(?: \{\w+\})?"', text.replace("rt; ", "")))


def statuses_of(sources):
    """The number and the words of each status: those of its line on standard error, or of the two that have none."""
    numbers = dict(re.findall(r"^status_number \(?(\w+)[^=]*= (\d+)$", sources.text("crates/ext_top/specs/Status.antt"), re.M))
    words = {"Done": "done", "Refused": "refused", **lines_of_statuses(sources.text("crates/ext_cli/src/ending.rt"))}
    if not numbers or numbers.keys() != words.keys():
        raise Failed(f"the statuses are {numbers}, and their words {words}")
    return {(numbers[one], words[one]) for one in numbers}


def has_status(row, number, words):
    return row[0] == number and words in " ".join(row[1:])


def check_statuses(sources, shown):
    for path, heading in ("docs/FORMATS.md", "Statuses"), ("docs/COMMANDS.md", "Statuses"):
        rows = rows_of(section(sources.text(path), heading))
        missing = {f"{number} {words}" for number, words in statuses_of(sources) if not any(has_status(row, number, words) for row in rows)}
        nothing_is_missing(f"{path} has no row for", missing)
    said = " ".join(shown.split())
    nothing_is_missing("--help lacks", {f"{number} {words}" for number, words in statuses_of(sources) if not re.search(rf"\b{number} (where the command was )?{words}\b", said)})


def commands_of(sources):
    """The first word of each command, and the words that may follow some of them."""
    text = sources.text("crates/ext_cmd/specs/Words.antt")
    commands = re.findall(r'^command_words .*?=\s+codes "([a-z-]+)"', text, re.M)
    verbs = re.findall(r'^view_words .*?=\s+codes "([a-z-]+)"', text, re.M)
    updates = re.findall(r'^update_words .*?=\s+codes "([a-z-]+)"', text, re.M)
    services = re.findall(r'^port_words .*?=\s+codes "([a-z-]+)"', sources.text("crates/ext_cmd/specs/Portable.antt"), re.M)
    if not commands or not verbs or not updates or not services:
        raise Failed("the definitions of words have no commands")
    return commands, {"sysext": verbs, "confext": verbs, "sysupdate": updates, "portable": services}


def check_commands(sources, shown):
    """Each stands in the grammar and in the table of FORMATS, in the table of COMMANDS, and in --help."""
    commands, verbs = commands_of(sources)
    formats, commands_told = sources.text("docs/FORMATS.md"), sources.text("docs/COMMANDS.md")
    grammar = re.search(r"```\n(.*?)```", section(formats, "Words"), re.S)[1].splitlines()
    told = [word for row in first_table(section(formats, "Commands")) for words in quoted(row[0]) for word in words.split()]
    listed = [words for row in first_table(section(commands_told, "The commands")) for words in quoted(row[0])]
    for command in commands:
        line = next((line.split() for line in grammar if line.split()[0] == command), None)
        if line is None or not set(verbs.get(command, ())) <= set(line):
            raise Failed(f"the grammar of docs/FORMATS.md lacks `{command}`, or a word of it")
        if command not in told:
            raise Failed(f"no row of docs/FORMATS.md tells what `{command}` does")
        if not any(words.split()[0] == command for words in listed):
            raise Failed(f"docs/COMMANDS.md has no row for `{command}`")
        if not re.search(rf"^  {command}\b", shown, re.M):
            raise Failed(f"--help lacks `{command}`")
    for command, verb in ((command, verb) for command in ("sysext", "sysupdate", "portable") for verb in verbs[command]):
        if verb not in told or not any(verb in words.split() for words in listed) or not re.search(rf"^  {command} ([^ ]+ )?{verb}\b", shown, re.M):
            raise Failed(f"a table or --help lacks `{command} {verb}`")


def check_questions(sources):
    rows = rows_of(sources.text("docs/DECISIONS.md"))
    nothing_is_missing("docs/DECISIONS.md has rows that begin with no question", {row[0] for row in rows if not row[0].endswith("?")})
    if not rows:
        raise Failed("docs/DECISIONS.md has no row")


def check_order_of_decisions(sources):
    """Those of rooms stand first, in the order of the rooms."""
    rooms = [room for room in rooms_of(sources) if f"\n## {room}\n" in sources.text("docs/DECISIONS.md")]
    headings = re.findall(r"^## (.*)$", sources.text("docs/DECISIONS.md"), re.M)
    if not rooms or headings[: len(rooms)] != rooms:
        raise Failed(f"docs/DECISIONS.md goes by {headings}, and not first by {rooms}")


def check_kit(sources, written):
    """The kit that --version names is the one of README, and the one that the carried programs were made with, where some are."""
    kit = written.partition("\nproved with ")[2].split("\n")[0]
    lines = {"README.md": f"\nProved with: {kit}\n"}
    if sources.files("dist/x86_64-linux/made-from"):
        lines["dist/x86_64-linux/made-from"] = f"kit: {kit}\n"
    nothing_is_missing(f"--version names `{kit}`, and not the kit of", {path for path, line in lines.items() if line not in sources.text(path)})


def help_of(program):
    return run(program, [b"--help"])[0].decode()


def the_definitions_are_those_of_the_sources(_program):
    """And each that is cited has words, by the comment over it or by the file beside the tool, which names no other."""
    sources = Sources()
    check_definitions(sources)
    edited = "ext_top/specs/Status.antt"
    comment = "-- the number that the process ends with\n"
    text, words = sources.text(f"crates/{edited}"), sources.text(WORDS)
    if comment not in text:
        raise Failed(f"{edited} hasn't {comment!r}")
    other = {f"crates/{edited}": text.replace(comment, "-- another number\n")}
    if "- `status_number`: another number\n" not in document(Sources(instead=other)):
        raise Failed("the comment over a definition isn't what its row has")
    refused(Sources(instead={f"crates/{edited}": text.replace(comment, "")}), f"status_number of {edited} has no comment, and {WORDS} has no words for it")
    given = {f"crates/{edited}": text.replace(comment, ""), WORDS: f"{words}{edited} status_number: a status\n"}
    if "- `status_number`: a status\n" not in document(Sources(instead=given)):
        raise Failed("given words aren't what the row has")
    more = {WORDS: f"{words}{edited} status_number: .. It is small\n"}
    if "- `status_number`: the number that the process ends with. It is small\n" not in document(Sources(instead=more)):
        raise Failed("given words don't follow the comment")
    if "\n- `AfterSomeIsOnTheWay`: .. and each such state" not in sources.text(DOCUMENT):
        raise Failed("what goes on with the words above it repeats them")
    refused(Sources(instead={WORDS: f"{words}{edited} nothing: words\n"}), f"{WORDS} has words for nothing of {edited}, which no contract of an exported call cites")
    line = words.count("\n") + 1
    for wrong in "status_number: words", words.splitlines()[-1]:
        at = f"{WORDS}: line {line} is none of FILE NAME: words, or names what an earlier line names"
        refused(Sources(instead={WORDS: f"{words}{wrong}\n"}), at)


def each_crate_is_in_the_map_and_on_its_floor(_program):
    check_crates(Sources())
    check_order(Sources())
    check_list(Sources())
    check_floors(Sources())


def the_promises_are_the_heads_of_the_crates(_program):
    """And what stands above them stays as it is."""
    check_promises(Sources())
    written, edited = Sources().text(PROMISES), "crates/ext_match/src/lib.rt"
    source = Sources().text(edited)
    first = source.splitlines(keepends=True)[0]
    if promises(Sources(instead={edited: source.replace(first, "//! What [`judge`](ext_match::judge) says.\n")})).count("\nWhat `judge` says.\n") != 1:
        raise Failed("the head of a crate isn't what its part has")
    told = source.replace(first, f"{first}//!\n//! It is small. Whoever judges stands on this.\n")
    if promises(Sources(instead={edited: told})) != written.replace(first.removeprefix("//! "), f"{first.removeprefix('//! ')}\nIt is small.\n", 1):
        raise Failed("who stands on a crate is told")
    if "#### ext_match\n" not in written or "#### ext_case\n" in written:
        raise Failed("the rooms aren't those whose crates promise something")
    changed = {PROMISES: written.replace("# Promises\n", "# Promised\n")}
    if promises(Sources(instead=changed)) != changed[PROMISES]:
        raise Failed("what stands above the crates doesn't stay")
    refused(Sources(instead={edited: source.replace("//!", "//")}), f"{edited} begins without a comment", promises)
    refused(Sources(instead={PROMISES: "# Promises\n"}), f"{PROMISES} has no heading 'Crate by crate'", promises)


def too_long(sources):
    """The documents that have more words than somebody reads; of PROMISES what is written by hand counts."""
    return {path for path, most in MOST_WORDS.items() if len(sources.text(path).partition("\n## Crate by crate\n")[0].split()) > most}


def what_is_read_first_stays_short(_program):
    nothing_is_missing("too long", too_long(Sources()))
    for path, most in MOST_WORDS.items():
        if too_long(Sources(instead={path: "word " * (most + 1)})) != {path}:
            raise Failed(f"nobody sees that {path} has more than {most} words")


def the_pictures_are_those_of_the_sources(_program):
    check_pictures(Sources())
    text, rooms = Sources().text(PARTS_TEXT), Sources().text("docs/ARCHITECTURE.md")
    if parts(Sources(instead={PARTS_TEXT: text.replace("tools/pack", "by hand")})) != Sources().text(PARTS).replace("tools/pack", "by hand"):
        raise Failed("the words of an arrow aren't those of its line")
    refused(Sources(instead={PARTS_TEXT: ""}), f"{PARTS_TEXT} doesn't begin with a size", parts)
    for line, why in ("circle a", "a line that is no size, box, frame or arrow: circle a"), ("arrow a.top depot.top: x", "an arrow at a.top, which is no side of a box above it"):
        refused(Sources(instead={PARTS_TEXT: f"{text}{line}\n"}), f"{PARTS_TEXT} has {why}", parts)
    row = next(line for line in rooms.splitlines(keepends=True) if line.startswith("| `ext_host` |"))
    for other, why in ("", "no room for ext_host of crates.txt"), (row * 2, "ext_host twice"), (row + "| `ext_no` | |\n", "ext_no, which crates.txt hasn't"):
        refused(Sources(instead={"docs/ARCHITECTURE.md": rooms.replace(row, other)}), f"docs/ARCHITECTURE.md has {why}", house)


def each_refusal_status_and_command_is_told(program):
    check_refusals(Sources())
    check_statuses(Sources(), help_of(program))
    check_commands(Sources(), help_of(program))
    check_publishing(Sources())
    check_erofs(Sources())


def the_version_names_the_kit_of_the_documents(program):
    written = run(program, [b"--version"])[0].decode()
    check_kit(Sources(), written)
    for path, begin in ("README.md", "Proved with: "), ("dist/x86_64-linux/made-from", "kit: "):
        if (TOP / path).exists():
            is_missed(check_kit, path, begin, written)


def each_decision_begins_with_a_question_and_stands_in_its_room(_program):
    check_questions(Sources())
    check_order_of_decisions(Sources())


def is_missed(check, path, begin, *given):
    """That a check fails where the first line of a document that begins so is taken away."""
    whole = Sources()
    lines = whole.text(path).splitlines(keepends=True)
    taken = next((line for line in lines if line.startswith(begin)), None)
    if taken is None:
        raise Failed(f"{path} has no line that begins with {begin!r}")
    try:
        check(Sources(instead={path: whole.text(path).replace(taken, "", 1)}), *given)
    except Failed:
        return
    raise Failed(f"nothing misses the line of {path} that begins with {begin!r}")


def a_row_that_is_taken_away_is_missed(program):
    shown = help_of(program)
    is_missed(check_definitions, DOCUMENT, "- `WantsOf`: what a command wants of a store")
    for crate in "ext_lines", "ext_trial", "ext_cli":
        is_missed(check_crates, "docs/ARCHITECTURE.md", f"| `{crate}` |")
    for crate in "ext_match", "ext_trial":
        is_missed(check_floors, "crates.txt", f"{crate}:")
    is_missed(check_list, "crates.txt", "# Trees")
    is_missed(check_order, "docs/ARCHITECTURE.md", "| `ext_text` |")
    is_missed(check_promises, PROMISES, "Verdicts: whether an extension fits")
    for path in PICTURES:
        is_missed(check_pictures, path, " <text")
    for begin in "| 1 | `no-store`", "| 7 | `limit", "| 25 |":
        is_missed(check_refusals, "docs/FORMATS.md", begin)
    for begin in "| 34 | ", "| 36 | ", "| 6 | `hostext: out fault":
        is_missed(check_publishing, "docs/FORMATS.md", begin)
    is_missed(check_erofs, "docs/FORMATS.md", "| 38 | `link PATH`")
    for path, begin in (("docs/FORMATS.md", "| 9 | `hostext"), ("docs/COMMANDS.md", "| 9 |"), ("docs/COMMANDS.md", "| 1 |")):
        is_missed(check_statuses, path, begin, shown)
    for path, begin in (("docs/FORMATS.md", "migrate"), ("docs/FORMATS.md", "| `cat`"), ("docs/COMMANDS.md", "| `remove"), ("docs/COMMANDS.md", "| `sysext")):
        is_missed(check_commands, path, begin, shown)
    for lost, check in ("\n  tree ", check_commands), ("9 unfinished", check_statuses):
        try:
            check(Sources(), shown.replace(lost, ""))
        except Failed:
            continue
        raise Failed(f"nothing misses {lost!r} in --help")


scenes = named(
    *(the_definitions_are_those_of_the_sources, each_crate_is_in_the_map_and_on_its_floor, the_pictures_are_those_of_the_sources),
    each_refusal_status_and_command_is_told,
    *(the_promises_are_the_heads_of_the_crates, what_is_read_first_stays_short),
    *(the_version_names_the_kit_of_the_documents, each_decision_begins_with_a_question_and_stands_in_its_room, a_row_that_is_taken_away_is_missed),
)
