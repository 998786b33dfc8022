"""What the replies to commands may be, by the tables of docs/FORMATS.md: whether what was written goes on with one of them."""
import re

from scenes.command_words import MERGED, REFUSED, TREE
from scenes.running import Failed
from scenes.tree_texts import DIRECTORY_FIELD, FILE_FIELD, OWNER

VERDICT = rb"(?:fits|scope|architecture|no-id|id|level|version)"
WHY = rb"(?:not-directory|has-os-release|no-release|bad-release [1-9][0-9]*)"
LISTED = rb"(?:[^\n]+ (?:image /[^\n]* %b|masked /[^\n]*|raw /[^\n]*|broken /[^\n]* %b)\n)*" % (VERDICT, WHY)
COUNTED = re.compile(rb"(merged|components|removed|attached) ([0-9]+)\n")
STATE = rb"(?:detached|attached-runtime|attached)"
SERVED = rb"(?:[^\n]+ (?:image /[^\n]* %b|masked /[^\n]*|raw /[^\n]*)\n)*" % STATE
INSPECTED = rb"image /[^\n]*\nid [^\n]*\nversion [^\n]*\n(?:unit [^\n]+\n)+"
OFFERED = rb"(?:[A-Za-z0-9._+~^-]+(?: (?:available|installed|partial|protected|obsolete))+\n)*"
CHANGED = rb"(?:[-+*] /[^\n]*\n)*"
EXPLAINED = rb"(?:image [^\n]+|base) (?:[do] %b|f %b [0-9]+ [0-9a-f]{64}|l%b [^\n]+|w|covers /[^\n]*)\n" % (DIRECTORY_FIELD, FILE_FIELD, OWNER)
# What each command may write that is done, the numbers of its refusals, and whether it then has changed the store. Each command
# over a store may be refused since there is none.
FORMS = {
    b"init": (rb"done\n", (2, 7), True),
    b"import-fs": (rb"done\n", (1, 4, 7, 9, 23, 24, 25), True),
    b"remove": (rb"done\n", (1, 4, 7, 8), True),
    b"list": (LISTED, (1, 5, 6), False),
    b"status": (MERGED, (1,), False),
    b"merge": (MERGED, (1, 3, 5, 6, 7), True),
    b"refresh": (MERGED, (1, 5, 6, 7), True),
    b"unmerge": (rb"unmerged\n", (1, 7), True),
    b"changes": (CHANGED, (1, 5, 6, 7), False),
    b"explain": (rb"(?:%b)+" % EXPLAINED, (1, 5, 6, 8), False),
    b"mark": (rb"marked [0-9]+\n", (1, 7), True),
    b"history": (rb"(?:[0-9]+ [0-9]+ [0-9]+\n)*", (1,), False),
    b"history --changes": (CHANGED, (1, 37), False),
    b"rollback": (rb"done\n", (1, 7, 37), True),
    b"forget": (rb"done\n", (1, 7, 37), True),
    b"tree": (TREE, (1, 8, 9), False),
    b"check": (rb"ok [0-9]+ [0-9]+\n", (1,), False),
    b"migrate": (rb"(?:done|unchanged)\n", (1, 7), True),
    b"compare": (rb"(?:less|equal|greater)\n", (), False),
    b"sysupdate list": (OFFERED, (1, 6, 7, 20, 21, 22, 24, 32, 33), False),
    b"sysupdate check-new": (rb"[A-Za-z0-9._+~^-]+\n", (1, 6, 7, 20, 21, 22, 24, 26, 32, 33), False),
    b"sysupdate update": (rb"(?:updated [A-Za-z0-9._+~^-]+|unchanged)\n", (1, 4, 6, 7, 9, 20, 21, 22, 23, 24, 25, 27, 28, 29, 32, 33), True),
    b"sysupdate vacuum": (rb"removed [0-9]+\n", (1, 4, 6, 7, 20, 21, 28, 29, 32, 33), True),
    b"sysupdate features": (rb"(?:[^\n]+ (?:on|off)\n)*", (1, 32), False),
    b"sysupdate components": (rb"components [0-9]+\n", (1,), False),
    b"portable list": (SERVED, (1,), False),
    b"portable inspect": (INSPECTED, (1, 11, 12, 13, 14, 15), False),
    b"portable is-attached": (rb"%b\n" % STATE, (1,), False),
    b"portable attach": (rb"attached [0-9]+\n", (1, 4, 7, 9, 11, 12, 13, 14, 15, 16, 17, 18, 30, 31), True),
    b"portable reattach": (rb"attached [0-9]+\n", (1, 4, 7, 9, 11, 12, 13, 14, 15, 16, 17, 19, 30, 31), True),
    b"portable detach": (rb"detached\n", (1, 4, 7, 19), True),
    b"cat": (rb"", (1, 8, 10), False),
}
# Those whose reply begins with the number of its other lines, where it has any.
COUNTING = b"status", b"merge", b"refresh", b"sysupdate components", b"sysupdate vacuum", b"portable attach", b"portable reattach"
# The replies of commands that may change a store, where they didn't.
KEPT = b"unchanged\n", b"removed 0\n"
NUMBERS = {number: word for word, number in REFUSED.items()}


def form_name(words):
    """The name of the row of a command."""
    if words[0] == b"sysupdate":
        return b"sysupdate " + words[2 if words[1].startswith(b"--component=") else 1]
    if words[0] in (b"history", b"portable"):
        return b" ".join(words[:2])
    return words[1] if words[0] in (b"sysext", b"confext") else words[0]


class Replies:
    """The replies to commands, where files have one of these contents."""

    def __init__(self, contents):
        self.contents = sorted(contents, key=len, reverse=True)

    def end_of(self, words, place, written, at):
        """Where the reply to these words ends that begins there, and whether the store is another then."""
        if place:
            return self.matched(rb"usage %d\n" % place, words, written, at), False
        name = form_name(words)
        form, numbers, changes = FORMS[name]
        refused = re.compile(rb"refused ([0-9]+) ([a-z-]+)(?: [^\n]*)?\n").match(written, at)
        # A reply without lines may have a refusal of the next command after it.
        if refused and int(refused[1]) in numbers and NUMBERS[int(refused[1])] == refused[2]:
            return refused.end(), False
        if name == b"cat":
            return at + self.content_at(words, written, at), False
        end = self.matched(form, words, written, at)
        return self.counted(end, written, at) if name in COUNTING else end, changes and not written.startswith(KEPT, at)

    def may_go_on(self, words, place, written, at):
        """Whether the reply to these words ends after any line of its form from there on: `explain` writes such lines alone, and the
        next reply may have lines of the same form."""
        return not place and form_name(words) == b"explain" and not written.startswith(b"refused ", at)

    def ends_of(self, words, place, written, at):
        """Where the reply may end, and whether the store is another then."""
        end, is_done = self.end_of(words, place, written, at)
        if not self.may_go_on(words, place, written, at):
            return {end: is_done}
        return {line.end(): is_done for line in re.compile(EXPLAINED).finditer(written, at, end)}

    def matched(self, form, words, written, at):
        found = re.compile(form, re.S).match(written, at)
        if not found:
            raise Failed(f"to {words[:6]} it replies {written[at:][:200]}")
        return found.end()

    def counted(self, end, written, at):
        """The end of a reply that counts its lines."""
        found = COUNTED.match(written, at)
        if not found:
            return end
        lines = written[found.end() :].split(b"\n", int(found[2]))
        return found.end() + sum(len(line) + 1 for line in lines[: int(found[2])])

    def content_at(self, words, written, at):
        for content in self.contents:
            if written.startswith(content, at):
                return len(content)
        raise Failed(f"to {words} it replies {written[at:][:200]}")
