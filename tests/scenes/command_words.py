"""A second reading of the rules of docs/FORMATS.md on the words of commands, which tests/mutations holds the program to: the place of a
usage fault, and what the reply to a command may look like."""
import re

from scenes.index_texts import ARCHITECTURES
from scenes.transfers import is_version
from scenes.tree_texts import is_name, names_of

VERBS = {b"list": (), b"status": (), b"merge": (b"--force",), b"unmerge": (), b"refresh": (b"--force",), b"changes": (b"--force",)}
UPDATES = b"list", b"check-new", b"update", b"vacuum", b"features"
SERVICES = b"list", b"inspect", b"is-attached", b"attach", b"detach", b"reattach"
MODES = b"copy", b"symlink", b"auto", b"mixed"
NOT_IN_A_LINE = b"layer", b"batch", b"sample"


def is_path(word):
    return word == b"/" or (word[:1] == b"/" and bool(names_of(word[1:])))


def is_path_below(word):
    return word != b"/" and is_path(word)


def is_resource(word):
    return bool(names_of(word)) and bool(names_of(word + b".tree"))


def hierarchies_of(word):
    """The names of hierarchies, or nothing."""
    names = [part[1:] for part in word.split(b":")]
    is_sound = all(part[:1] == b"/" and is_name(part[1:]) and part[1:2] != b"-" for part in word.split(b":"))
    return set(names) if is_sound and len(names) <= 16 and len(set(names)) == len(names) else None


def is_component(word):
    name = word.removeprefix(b"--component=")
    return word.startswith(b"--component=") and is_name(name) and len(name) <= 243 and name[:1] != b"-"


def is_sample(word):
    return bool(re.fullmatch(rb"[1-9][0-9]{0,2}", word)) and int(word) <= 500


def is_count(word, most):
    return bool(re.fullmatch(rb"[1-9][0-9]{0,9}", word)) and int(word) <= most


def is_keep(word):
    return is_count(word, 16)


def is_mark(word):
    return is_count(word, 4294967295)


def is_plain(word):
    return is_name(word) and word[:1] != b"-"


def is_image(word):
    return is_plain(word) or is_path_below(word)


def is_option(word):
    name, given, value = word.partition(b"=")
    values = {b"--profile": is_plain, b"--copy": one_of(MODES), b"--extension": is_image}
    return word == b"--runtime" or bool(given and name in values and values[name](value))


def joins(options, word):
    """Whether an option may stand beside these."""
    extensions = [option for option in options if option.startswith(b"--extension=")]
    if word.startswith(b"--extension="):
        return word not in options and len(extensions) < 16 and b"--copy=symlink" not in options
    is_first = word.partition(b"=")[0] not in {option.partition(b"=")[0] for option in options}
    return is_first and not (word == b"--copy=symlink" and extensions)


def is_any(_word):
    return True


def one_of(words):
    return lambda word: word in words


def of_a_component(form):
    """Words after `sysupdate`, and the same with the option before them."""
    return [form, (is_component, *form)]


# What each word after the first may be; `init` and the verbs of views and updates have more to say.
FORMS = {
    b"import-fs": [(is_resource, is_path)],
    b"remove": [(is_path_below,)],
    b"tree": [(), (is_path,)],
    b"cat": [(is_path_below,)],
    b"check": [()],
    b"migrate": [()],
    b"compare": [(is_any, is_any)],
    b"layer": [()],
    b"batch": [()],
    b"sample": [(is_sample,)],
    b"mark": [(), (is_keep,)],
    b"history": [(), (one_of((b"--changes",)), is_mark)],
    b"rollback": [(is_mark,)],
    b"forget": [(is_mark,)],
    b"portable": [(one_of(SERVICES),)],
    b"sysupdate": [*of_a_component((one_of(UPDATES),)), *of_a_component((one_of((b"update",)), is_version)), (one_of((b"components",)),)],
    b"init": [(one_of(ARCHITECTURES), one_of((b"system", b"initrd")), *(hierarchies_of,) * count) for count in (0, 1, 2)],
    **dict.fromkeys(
        (b"sysext", b"confext"),
        [
            *(form for verb, options in VERBS.items() for form in [(one_of((verb,)),), *((one_of((verb,)), one_of((option,))) for option in options)]),
            *((one_of((b"explain",)), *options, is_path_below) for options in ((), (one_of((b"--force",)),))),
        ],
    ),
}


def begins(words, form):
    return len(words) <= len(form) and all(holds(word) for holds, word in zip(form, words))


def are_apart(words):
    """Whether the hierarchies of `init` are of one class each; a class without a list has its default."""
    given = [hierarchies_of(word) for word in words[3:]]
    first, second = [*given, *({b"opt", b"usr"}, {b"etc"})[len(given) :]]
    return not first & second


def place_of_service(words):
    """The same of words after `portable` and its verb, of which any number may be prefixes."""
    verb, options, others = words[1], [], 0
    for place, word in enumerate(words[2:], 3):
        is_attaching = verb in (b"attach", b"reattach")
        if is_attaching and word[:1] == b"-":
            if not is_option(word) or not joins(options, word):
                return place
            options.append(word)
            continue
        most = {b"list": 0, b"is-attached": 1, b"detach": 1}.get(verb, len(words))
        begins_with_image = verb == b"inspect" or is_attaching
        if others == most or not (is_image if begins_with_image and not others else is_plain)(word):
            return place
        others += 1
    return None if others or verb == b"list" else len(words) + 1


def place_of(words, first_words=FORMS):
    """The place of the first word that no command has there, or nothing where the words are a command."""
    if words[:1] == [b"portable"] and words[1:2] and words[1] in SERVICES and b"portable" in first_words:
        return place_of_service(words)
    for length in range(1, len(words) + 1):
        name, *others = words[:length]
        is_begun = name in first_words and any(begins(others, form) for form in FORMS[name])
        if not is_begun or (name == b"init" and length == 5 and not are_apart(words[:length])):
            return length
    is_whole = words and any(len(words) - 1 == len(form) and begins(words[1:], form) for form in FORMS[words[0]])
    return None if is_whole and (words[0] != b"init" or are_apart(words)) else len(words) + 1


IN_A_LINE = [name for name in FORMS if name not in NOT_IN_A_LINE]

TREE = rb"hostext-tree [123]\n(?:[dofl] [^\n]*\n|w [^\n]*\n)*?end\n"
MERGED = rb"(?:unmerged|merged [0-9]+(?:\n[^\n/]+)*?)\n"
REFUSED = {
    b"no-store": 1, b"store-exists": 2, b"merged": 3, b"read-only": 4, b"no-host-release": 5, b"bad-host-release": 6, b"limit": 7, b"no-entry": 8, b"not-directory": 9,
    b"not-file": 10, b"no-image": 11, b"not-portable": 12, b"bad-release": 13, b"prefix": 14, b"no-units": 15, b"no-profile": 16, b"exists": 17, b"already-attached": 18,
    b"not-attached": 19, b"no-extension": 30, b"extension": 31, b"no-transfers": 20, b"bad-transfer": 21, b"bad-manifest": 22, b"bad-tree": 23, b"not-in-depot": 24, b"mismatch": 25, b"none-newer": 26, b"no-such-version": 27,
    b"no-room": 28, b"clash": 29, b"bad-feature": 32, b"none-on": 33, b"no-mark": 37,
}
