"""The manual pages: that they have each command, option, status, refusal and format that docs/FORMATS.md and `--help` have, and no
other; that mandoc(1) has nothing to say of them; and that their examples write what they show. The pages are read as texts, by
their lines and macros."""
import os
import re
import shutil
import subprocess
import tempfile
from pathlib import Path

from scenes.documents import Sources, cells_of, first_table, help_of, is_missed, quoted, rows_of, section
from scenes.running import SECONDS, TOP, Failed, Skipped, imager, named, publisher
from scenes.sessions import commands_of, follow

COMMANDS, FORMATS, PUBLISHING, EROFS = "man/hostext.1", "man/hostext-formats.5", "man/hostext_publish.1", "man/hostext_erofs.1"
# The tools that have a page, by their names in tools.
TOOLS = "activate", "image-from-packages", "pack", "tend", "tree-text", "unpack"
RULES = "docs/FORMATS.md"
MACRO = re.compile(r"[A-Z][a-z]")
DELIMITERS = ",", ".", ";", ":"
# What mandoc(1) says of the machine, and not of a page.
OF_THE_MACHINE = "referenced manual not found", "outdated mandoc.db"


def unescaped(text):
    return text.replace("\\&", "").replace("\\-", "-").replace("\\(aq", "'").replace("\\e", "\\")


def plain(line):
    """The text of a line of macros."""
    text, macro, begins, ends, joins = "", "", "", "", True
    for word in line.split(" "):
        if word == "Op":
            begins, ends = "[", ends + "]"
        elif word == "Oo":
            begins = "["
        elif word == "Oc":
            text += "]"
        elif MACRO.fullmatch(word):
            macro, joins = word, joins or word == "Ns"
        else:
            dash = "-" if macro == "Fl" and word not in (*DELIMITERS, "|") else ""
            text += ("" if joins or word in DELIMITERS else " ") + begins + dash + unescaped(word)
            begins, joins = "", False
    return text + ends


class Page:
    """A page: of each section and subsection the lines below its heading."""

    def __init__(self, text):
        self.text = text
        self.parts = dict(re.findall(r"^\.S[hs] ([^\n]*)\n(.*?)(?=^\.S[hs] |\Z)", text, re.M | re.S))

    def lines(self, heading):
        if heading not in self.parts:
            raise Failed(f"a manual page has no heading {heading!r}")
        return self.parts[heading].splitlines()

    def items(self, heading):
        """What stands before each item of the lists."""
        return [plain(line.removeprefix(".It ")) for line in self.lines(heading) if line.startswith(".It ")]

    def read(self, heading):
        """The text of a part without its macros."""
        return " ".join(plain(line[1:]) if line.startswith(".") else unescaped(line) for line in self.lines(heading))

    def blocks(self, heading):
        """The blocks of text that stands as it is."""
        return [unescaped(block) for block in re.findall(r"^\.Bd [^\n]*\n(.*?)^\.Ed$", self.parts[heading], re.M | re.S)]

    def said(self):
        return " ".join(self.read(heading) for heading in self.parts)


def page(sources, path):
    return Page(sources.text(path))


def same(what, found, wanted):
    if found != wanted:
        raise Failed(f"{what} are {found}, and not {wanted}")


def alike(what, found, wanted):
    """Compares two sets, and tells what only one of them has."""
    if not wanted:
        raise Failed(f"there are no {what}")
    if set(found) != set(wanted):
        raise Failed(f"of the {what} the page lacks {sorted(set(wanted) - set(found))}, and has besides {sorted(set(found) - set(wanted))}")


def commands_of_the_grammar(sources):
    """The words of each command, one form each. The two kinds of paths have one name."""
    block = re.search(r"```\n(.*?)```", section(sources.text(RULES), "Words"), re.S)[1]
    found = []
    for line in re.sub(r"\bABS1?\b", "PATH", block).splitlines():
        first, *others = line.split(" | ")
        found += [first, *(f"{first.rsplit(' ', 1)[0]} {other}" for other in others)]
    return found


def commands_of_the_help(shown):
    """The same of the lines of `--help`, which tell of one class of extensions by those of the other."""
    found = re.findall(r"^  (\S+(?: \S+)*)", shown, re.M)
    views = [words.replace("sysext", "confext") for words in found if words.startswith("sysext ")]
    return [*(words for words in found if words != "confext .."), *views]


def check_commands(sources, shown):
    found = [words for item in page(sources, COMMANDS).items("COMMANDS") for words in item.split(", ")]
    same("the commands of --help", sorted(commands_of_the_help(shown)), sorted(commands_of_the_grammar(sources)))
    alike("commands", found, commands_of_the_grammar(sources))


def options_of(text):
    return re.findall(r"--[a-z]+", text)


def check_options(sources, shown):
    rules = sources.text(RULES)
    # what it says of a tool's option is none of the program
    text = re.sub(r"`tools/[a-z-]+ --[a-z-]+`", "", section(rules, "Words") + section(rules, "Statuses"))
    wanted = options_of(text)
    alike("options", options_of(page(sources, COMMANDS).said()), wanted)
    variables = re.findall(r"HOSTEXT_\w+", section(rules, "Statuses"))
    same("the variables of --help", set(re.findall(r"HOSTEXT_\w+", shown)), set(variables))
    alike("variables", page(sources, COMMANDS).items("ENVIRONMENT"), variables)


def check_statuses(sources):
    rows = first_table(section(sources.text(RULES), "Statuses"))
    alike("statuses", page(sources, COMMANDS).items("EXIT STATUS"), [" ".join([row[0], *quoted(row[1])]) for row in rows])


def refusals_of(sources):
    rows = rows_of(section(sources.text(RULES), "Commands"))
    return [f"refused {row[0]} {quoted(row[1])[0]}" for row in rows if row[0].isdigit()]


def check_refusals(sources):
    alike("refusals", page(sources, COMMANDS).items("REFUSALS"), refusals_of(sources))


def check_publishing(sources):
    """The refusals in their order, the statuses, the option and the variables of the program that publishes."""
    check_program(section(sources.text(RULES), "Publishing"), page(sources, PUBLISHING))


def check_erofs(sources):
    """The same of the program that writes EROFS images."""
    check_program(section(sources.text(RULES), "EROFS images"), page(sources, EROFS))


def check_program(rules, manual):
    refusals = first_table(rules[rules.index("| number |") :])
    same("the refusals", manual.items("REFUSALS"), [f"refused {row[0]} {quoted(row[1])[0]}" for row in refusals])
    statuses = first_table(rules[rules.index("| status of the process |") :])
    same("the statuses", manual.items("EXIT STATUS"), [" ".join([row[0], *quoted(row[1])]) for row in statuses])
    alike("options", options_of(manual.said()), options_of(rules))
    alike("variables", manual.items("ENVIRONMENT"), re.findall(r"HOSTEXT_\w+", rules))


def numbers_of(text):
    """The numbers of a text in their order, each once."""
    return list(dict.fromkeys(re.findall(r"\b\d+\b", text)))


def orders_of(sources):
    """The refusals of each command in the order in which they come, by its first words."""
    text = section(sources.text(RULES), "Commands")
    rows = rows_of(text[text.index("| command | order |") :])
    found = {}
    for names, order in rows:
        if names.startswith("`sysext` and"):
            verbs = dict(zip(quoted(names)[2:], order.split(";")))
            verbs["merge"] += verbs["refresh"]
            found |= {f"sysext {verb}": numbers_of(said) for verb, said in verbs.items()}
        elif names.startswith("`sysupdate list`"):
            found["list"], found["check-new"] = numbers_of(order.split(";")[0]), numbers_of(order)
        else:
            found |= {name.removeprefix("sysupdate "): numbers_of(order) for name in quoted(names)}
    return found


def refused_by(text):
    """The first words of each command of the page, with the numbers by which it is refused."""
    found = {}
    for item, body in re.findall(r"^\.It ([^\n]*)\n(.*?)(?=^\.It |^\.El)", text, re.M | re.S):
        words = re.sub(r" \[.*?\]| [A-Z]+\b", "", plain(item).split(", ")[0]).removeprefix("sysupdate ").rstrip("]")
        found[words] = numbers_of(" ".join(re.findall(r"^Refused by (.*?\.)$", body, re.M | re.S)))
    return found


def check_orders(sources):
    wanted = orders_of(sources)
    found = refused_by(page(sources, COMMANDS).parts["COMMANDS"])
    found["check-new"] = found["list"] + ["26"]
    for command, numbers in found.items():
        if numbers != wanted.get(command, []):
            raise Failed(f"the page has `{command}` refused by {numbers}, and docs/FORMATS.md by {wanted.get(command, [])}")


def check_words(sources):
    """The words of verdicts, of broken images and of limits."""
    rules, manual = section(sources.text(RULES), "Commands"), page(sources, COMMANDS)
    for begin, heading in ("VERDICT is", "COMMANDS"), ("WHY is", "COMMANDS"), ("WHICH is", "REFUSALS"):
        words = [word.split()[0] for word in quoted(re.search(rf"{begin}[^\n]*?\.(?=\s)", rules)[0])]
        said = manual.read(heading)
        lost = [word for word in words if not re.search(rf"(?<![\w-]){word}(?![\w-])", said)]
        if lost or not words:
            raise Failed(f"the page lacks the words {lost}")


def forms_of(block):
    """The lines of a block, each up to what is said of it beside it."""
    return [re.split(r" {2,}", line)[0] for line in block.splitlines()]


def check_forms(sources):
    """The lines of tree texts and of an index."""
    rules, manual = sources.text(RULES), page(sources, FORMATS)
    for theirs, ours in ("Tree text", "Tree text"), ("The store", "The store"):
        blocks = re.findall(r"^```\n(.*?)^```$", section(rules, theirs), re.M | re.S)
        wanted = [forms_of(block) for block in blocks[: len(manual.blocks(ours))]]
        same(f"the lines of {ours!r}", [forms_of(block) for block in manual.blocks(ours)], wanted)
    alike("paths of a store", manual.items("The store"), [quoted(row[0])[0] for row in first_table(section(rules, "The store"))])


def check_patterns(sources):
    text = section(sources.text(RULES), "Patterns")
    wanted = [quoted(row[0])[0] for row in first_table(text)] + re.findall(r"\(`([^`]+)`\)", text)
    same("the faults of patterns", page(sources, FORMATS).items("Patterns"), wanted)


def keys_of_the_rules(sources):
    """The section, the key and the fault of each row of transfer files."""
    found = []
    for named_by, _, _, fault in rows_of(sources.text(RULES)[sources.text(RULES).index("| section, key |") :].split("\n\n")[0]):
        sections, keys = re.findall(r"Source|Target|Transfer", named_by.split("`")[0]), quoted(named_by)
        found += [(part, key, "".join(quoted(fault))) for part in sections for key in keys]
    return found


def keys_of_the_page(sources):
    found, part = [], ""
    for line in page(sources, FORMATS).lines("Transfer files"):
        cells = [plain(cell).strip() for cell in line.removeprefix(".It ").split(" Ta")]
        if cells[0].startswith("["):
            part = cells[0].strip("[]")
        elif line.startswith(".It ") and cells[0].endswith("="):
            found.append((part, cells[0], cells[1]))
    return found


def check_transfers(sources):
    same("the keys of transfer files", keys_of_the_page(sources), keys_of_the_rules(sources))
    rules, said = section(sources.text(RULES), "Transfer files"), page(sources, FORMATS).read("Transfer files")
    alike("specifiers", re.findall(r"%[A-Za-z%]", said), re.findall(r"`(%[A-Za-z%])`", rules))
    booleans = quoted(re.search(r"the last `Enabled=` is (.*?)\.", rules)[1])
    alike("booleans", re.findall(r"[a-z0-9]+", re.search(r"True is(.*?)\.", said)[1].replace("and false is", "").replace(" or ", " ")), booleans)
    folders = re.findall(r"`(/[a-z/]+/sysupdate\.d)`", rules)
    same("the folders of transfer files", re.findall(r"/[a-z/]+/sysupdate\.d", said), folders)


def check_images(sources):
    rules, manual = section(sources.text(RULES), "Images"), page(sources, FORMATS)
    found = re.findall(r"^\.It Cm (sysext|confext|portable)\n((?:\.Pa [^\n]*\n)+)", manual.parts["Images"], re.M)
    directories = {one: [plain(line[1:]).strip(" ,") for line in paths.splitlines()] for one, paths in found}
    same("the search directories", directories, {quoted(row[0])[0]: quoted(row[1]) for row in first_table(rules)})
    whys = [quoted(row[0])[0] for row in rows_of(rules[rules.index("| WHY |") :])]
    verdicts = [row[1].lower().replace(" ", "-") for row in first_table(section(sources.text(RULES), "Verdicts"))]
    items = [item for item in manual.items("Images") if item and item not in directories]
    same("the reasons and verdicts", [item for item in items if item != ".It"], whys + verdicts)
    alike("endings", re.findall(r"(?<![\w/])\.(?:raw\.v|raw|v)\b", manual.read("Images")), re.findall(r"`(\.raw\.v|\.raw|\.v)`", rules))


def each_command_option_status_and_refusal_is_in_the_manual_and_no_other(program):
    sources, shown = Sources(), help_of(program)
    check_commands(sources, shown)
    check_options(sources, shown)
    for check in check_statuses, check_refusals, check_orders, check_words, check_publishing, check_erofs:
        check(sources)


def the_manual_of_formats_has_what_the_formats_are(_program):
    for check in check_forms, check_patterns, check_transfers, check_images:
        check(Sources())


def is_told(check, path, old, new, *given):
    """That a check fails where a page has other words everywhere."""
    try:
        check(Sources(instead={path: Sources().text(path).replace(old, new)}), *given)
    except Failed:
        return
    raise Failed(f"nothing tells that {path} has {new!r} in place of {old!r}")


def what_the_manual_has_besides_is_told(program):
    shown = help_of(program)
    for old, new in ("-version", "-versions"), ("-force", "-forced"), ("EXPLAIN", "EXPLAINS"):
        is_told(check_options, COMMANDS, old, new, shown)
    is_told(check_commands, COMMANDS, ".It Ic check\n", ".It Ic check\n.It Ic mend\n", shown)
    is_told(check_statuses, COMMANDS, ".It 10 ", ".It 11 Li more\nText.\n.It 10 ")
    is_told(check_refusals, COMMANDS, "none\\-on", "none\\-off")
    is_told(check_orders, COMMANDS, "Refused by 8, 4 and 7", "Refused by 4, 8 and 7")
    is_told(check_publishing, PUBLISHING, "out\\-kind", "out\\-kinds")
    is_told(check_publishing, PUBLISHING, "-help", "-helps")
    is_told(check_publishing, PUBLISHING, "-version", "-versions")
    is_told(check_erofs, EROFS, "no\\-mark", "no\\-marks")
    is_told(check_erofs, EROFS, "-time", "-times")
    is_told(check_transfers, FORMATS, "&%a", "&%b")
    is_told(check_images, FORMATS, "/var/lib/confexts", "/var/lib/confext")


def a_line_of_the_manual_that_is_taken_away_is_missed(program):
    shown = help_of(program)
    for begin in ".It Ic migrate", ".It Ic sysext unmerge", ".It Ic sysupdate components", ".It Ic tree":
        is_missed(check_commands, COMMANDS, begin, shown)
    is_missed(check_options, COMMANDS, ".It Ev HOSTEXT_LOCK", shown)
    for check, path, begins in (
        (check_statuses, COMMANDS, (".It 0", ".It 7", ".It 10")),
        (check_refusals, COMMANDS, (".It Li refused 1 ", ".It Li refused 25", ".It Li refused 33")),
        (check_orders, COMMANDS, ("Refused by 5", "Refused by 8, 4", "Refused by 32")),
        (check_words, COMMANDS, (".Li architecture", ".Li no\\-release", ".Cm generations")),
        (check_publishing, PUBLISHING, (".It Li refused 1 ", ".It Li refused 34", ".It 6", ".It Ev HOSTEXT_LOCK")),
        (check_erofs, EROFS, (".It Li refused 1 ", ".It Li refused 38", ".It 8", ".It Ev HOSTEXT_EXPLAIN")),
        (check_forms, FORMATS, ("l LENGTH", "m HEX", "hierarchies K", ".It Pa next")),
        (check_patterns, FORMATS, (".It Cm adjacent", ".It Cm too")),
        (check_transfers, FORMATS, (".It Li Mode=", ".Li \\&%w", ".Li true", ".Pa /run/sysupdate.d", ".It Li [Source]")),
        (check_images, FORMATS, (".Pa /run/confexts", ".It Cm no\\-release", ".It Cm level")),
    ):
        for begin in begins:
            is_missed(check, path, begin)


def pages():
    return sorted(f"man/{path.name}" for path in (TOP / "man").iterdir())


def the_pages_of_tools_have_the_options_and_statuses_of_their_help(_program):
    for name in "fetch", "update":
        manual, shown = page(Sources(), f"man/hostext-{name}.1"), subprocess.run([TOP / "tools" / name, "--help"], stdout=subprocess.PIPE, timeout=SECONDS).stdout.decode()
        statuses = re.search(r"^The status is .*?\n(?:\n|\Z)", shown, re.M | re.S)[0]
        alike("statuses", numbers_of(manual.read("EXIT STATUS")), numbers_of(statuses))
        if name == "fetch":
            alike("options", re.findall(r"--[a-z-]+", manual.read("SYNOPSIS")), re.findall(r"--[a-z-]+", shown))
            alike("limits", re.findall(r"\d+(?:,\d+)+", manual.read("LIMITS")), re.findall(r"\d+(?:,\d+)+", shown))


def mandoc_has_nothing_to_say(_program):
    """Which other pages stand on this machine is nothing of these."""
    if not shutil.which("mandoc"):
        raise Skipped("there is no mandoc")
    for path in pages():
        ended = subprocess.run(["mandoc", "-T", "lint", TOP / path], stdout=subprocess.PIPE, stderr=subprocess.STDOUT, timeout=SECONDS)
        said = [line for line in ended.stdout.decode().splitlines() if not any(words in line for words in OF_THE_MACHINE)]
        if said:
            raise Failed("; ".join(said))


def each_page_that_is_named_and_ours_is_there(_program):
    for path in pages():
        for name, number in re.findall(r"^\.Xr (hostext\S*) (\d)", (TOP / path).read_text(), re.M):
            if not (TOP / f"man/{name}.{number}").is_file():
                raise Failed(f"{path} names {name}({number}), which isn't there")


def check_tool(sources, name):
    """The options and the variables of a tool are those that its help and its text have, and its statuses those of all of them."""
    manual = page(sources, f"man/hostext-{name}.1")
    shown = subprocess.run([TOP / "tools" / name, "--help"], capture_output=True, check=True, timeout=SECONDS).stdout.decode()
    options = re.findall(r"^  (?:-h, )?(--[a-z-]+)", shown, re.M)
    alike(f"options of {name}", [item.split()[0] for item in manual.items("OPTIONS")], options)
    alike(f"variables of {name}", manual.items("ENVIRONMENT"), re.findall(r"\b(?:HOSTEXT(?:_\w+)?|SOURCE_DATE_EPOCH|TMPDIR)\b", shown))
    same(f"the statuses of {name}", manual.items("EXIT STATUS"), ["0", "1", "2", "129, 130, 143"])


def each_option_of_a_tool_is_in_its_manual_and_no_other(_program):
    for name in TOOLS:
        check_tool(Sources(), name)


def an_option_that_the_manual_of_a_tool_lacks_is_missed(_program):
    for name, begin in ("activate", ".It Fl -even"), ("activate", ".It Ev HOSTEXT_LOCK"), ("pack", ".It Fl -public"), ("unpack", ".It Fl -keep"), ("unpack", ".It Fl -squashfs"), ("unpack", ".It Ev TMPDIR"), ("image-from-packages", ".It Fl -confext"), ("tree-text", ".It Fl -quiet"), ("tend", ".It Fl -root"), ("tend", ".It Ev HOSTEXT_ACTIVATE"), ("unpack", ".It Ev HOSTEXT\n"):
        is_missed(lambda sources: check_tool(sources, name), f"man/hostext-{name}.1", begin)


TRANSFER = "host/etc/sysupdate.d/tool.transfer"


def make_images(folder):
    """The folders of the examples: those of examples/depot, and a second version of one."""
    shutil.copytree(TOP / "examples/depot/host", folder / "host")
    for name in "tool-2", "tool-3":
        shutil.copytree(TOP / "examples/depot/images/tool-2", folder / name)
    release = folder / "tool-3/usr/lib/extension-release.d/extension-release.tool-2"
    release.rename(release.with_name("extension-release.tool-3"))
    for name in "tool-2", "tool-3":
        (folder / name).chmod(0o755)


def the_examples_write_what_they_show(program):
    follow_examples(COMMANDS, {"hostext": program})


def the_examples_of_publishing_write_what_they_show(program):
    follow_examples(PUBLISHING, {"hostext": program, "hostext_publish": publisher()})


def the_examples_of_erofs_images_write_what_they_show(program):
    follow_examples(EROFS, {"hostext": program, "hostext_erofs": imager()})


def follow_examples(path, programs):
    """With the programs and the tools on the PATH under the names that they are installed by. The file that is shown is put in its
    place where the examples come to it."""
    with tempfile.TemporaryDirectory() as place:
        folder = Path(place)
        make_images(folder)
        (folder / "bin").mkdir()
        for name, leads in {**programs, "hostext-pack": TOP / "tools/pack"}.items():
            (folder / "bin" / name).symlink_to(leads)
        for block in page(Sources(), path).blocks("EXAMPLES"):
            if block.startswith("$ "):
                follow(commands_of(block), folder, {"PATH": f"{folder / 'bin'}:{os.environ['PATH']}"})
            else:
                (folder / TRANSFER).parent.mkdir()
                (folder / TRANSFER).write_text(block)


scenes = named(
    *(each_command_option_status_and_refusal_is_in_the_manual_and_no_other, the_manual_of_formats_has_what_the_formats_are),
    *(a_line_of_the_manual_that_is_taken_away_is_missed, what_the_manual_has_besides_is_told, mandoc_has_nothing_to_say, the_pages_of_tools_have_the_options_and_statuses_of_their_help, each_page_that_is_named_and_ours_is_there),
    *(each_option_of_a_tool_is_in_its_manual_and_no_other, an_option_that_the_manual_of_a_tool_lacks_is_missed),
    *(the_examples_write_what_they_show, the_examples_of_publishing_write_what_they_show, the_examples_of_erofs_images_write_what_they_show),
)
