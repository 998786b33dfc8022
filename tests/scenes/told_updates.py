"""The rows of docs/FROM_SYSTEMD.md on updates, as functions: each changes what hostext gets of a case, or is asked, by what its row says,
so that both have to come to the same."""
import re

from scenes.real_trees import directory, with_parents, without
from scenes.transfers_beside import placed
from scenes.updates import ORDER, compared

# As many as any target may keep.
ALL = 1_000_000
MARKED = re.compile(r"[~^]")


def is_greater(one, other):
    return compared(one, other) > 0


def greatest(versions):
    return max(versions, key=ORDER, default=None)


def active(case):
    return [transfer for transfer in case.transfers if case.is_on(transfer)]


def offered(case):
    """The versions that all sources have, and no `MinVersion=` exceeds."""
    on = active(case)
    found = set.intersection(*(set(transfer.offers) for transfer in on)) if on else set()
    return {version for version in found if not any(transfer.minimum and is_greater(transfer.minimum, version) for transfer in on)}


def present(case):
    """The versions of which a target has an instance, and those of which each has one."""
    on = [set(transfer.instances) for transfer in active(case)]
    return (set.union(*on), set.intersection(*on)) if on else (set(), set())


def coming(case):
    """The version that systemd installed."""
    return case.answer[1] if case.answer[0] == "installed" else None


def absent_numbers_of_instances(case):
    """Where `InstancesMax=` is absent three stay, and where it is 1 two do."""
    for transfer in case.transfers:
        transfer.most = {None: 3, 1: 2}.get(transfer.most, transfer.most)


def several_protected_versions_on_a_line(case):
    """Several versions on one line protect none."""
    for transfer in case.transfers:
        if transfer.on_a_line and len(transfer.protect) > 1:
            transfer.protect = []


def targets_that_have_the_version(case):
    """In a target that has the version that comes no room is made."""
    for transfer in active(case):
        if coming(case) in transfer.instances:
            transfer.most = ALL


def links_to_what_was_there(case):
    """Where a target has the version already its link isn't set."""
    for transfer in active(case):
        if coming(case) in transfer.instances:
            transfer.link = None


def more_protected_versions_than_may_stay(case):
    """All protected versions stay, and the new one comes too."""
    for transfer in active(case):
        kept = [version for version in transfer.instances if version in transfer.protect and version != coming(case)]
        transfer.most = max(transfer.most, len(kept) + (coming(case) is not None))


def downgrades_below_a_version_in_part(case):
    """Where the greatest installed version is there in part, a lower one that is offered is news. Here it has to be named."""
    some, whole = present(case)
    news = greatest(offered(case))
    if whole and news and greatest(some) not in whole and news not in some and is_greater(greatest(whole), news):
        case.asks_for_news = False
        if case.command == "update":
            case.command = f"update {news}"


def versions_in_part_below_others(case):
    """A version that is there in part, below another one in part, is not made whole unless it is named."""
    some, whole = present(case)
    top, news = greatest(some), greatest(offered(case))
    if top and news and top not in whole and news != top and news in some and news not in whole:
        case.asks_for_news = False
        if case.command == "update" and case.answer[0] == "unchanged":
            case.command = ""


def features_that_are_off(case):
    """What a transfer has installed goes with the next update or vacuum once its feature is off, but for protected versions."""
    if case.answer[0] in ("installed", "vacuumed") or is_another(case):
        for transfer in case.transfers:
            if not case.is_on(transfer):
                transfer.instances = {version: entry for version, entry in transfer.instances.items() if version in transfer.protect}
                case.host = {**case.host, transfer.target: case.host.get(transfer.target, ("d", 0o755))}


def offers_below_the_least_version(case):
    """What is offered below `MinVersion=` is listed there, and told to be available."""
    on = active(case)
    for version in set.intersection(*(set(transfer.offers) for transfer in on)) if on else ():
        if version not in offered(case):
            case.unoffered.add(version)


def absent_modes(case):
    """A file without `Mode=` has that of its source, and one of a URL 644."""
    for transfer in active(case):
        if transfer.mode is None and transfer.kind == "regular-file" and coming(case) in transfer.offers:
            transfer.mode = f"{transfer.offers[coming(case)][1]:o}"


def modes_of_directories(case):
    """The directory of a resource keeps its own mode, or has that of `Mode=`."""
    directories = [transfer for transfer in active(case) if transfer.is_directory]
    if any(transfer.mode or entries[""][1] != 0o755 for transfer in directories for entries in transfer.offers.values()):
        case.keeps_tops = True


def texts_of_links(case):
    """A link at a path from the root has a relative text."""
    case.leads |= {transfer.link[1:] for transfer in active(case) if (transfer.link or "").startswith("/")}


def links_at_targets(case):
    """A target's directory may be a link."""
    for transfer in case.transfers:
        entry = case.host.get(transfer.target, ("d",))
        if entry[0] == "l":
            path, transfer.target = transfer.target, entry[1].lstrip("/")
            case.host[path] = entry


def what_stands_at_links(case):
    """What stands where a link is set gives way to it."""
    for transfer in active(case):
        if transfer.link and coming(case):
            path = transfer.link[1:] if transfer.link.startswith("/") else f"{transfer.target}/{transfer.link}"
            if case.host.get(path, ("l",))[0] == "f":
                case.host = without(case.host, path)


def what_stands_at_new_names(case):
    """What stands at the name of a new resource gives way to it."""
    for transfer in active(case):
        if coming(case) and coming(case) not in transfer.instances:
            case.host = without(case.host, f"{transfer.target}/{transfer.named(coming(case))}")


def files_on_the_way(case):
    """Where a file stands on the way to a target the command fails."""
    if any(case.host.get(transfer.target, ("d",))[0] == "f" for transfer in case.transfers):
        for transfer in case.transfers:
            for version, entry in transfer.instances.items():
                case.host.update(placed(f"{transfer.target}/{transfer.named(version)}", entry))
        case.transfers.clear()


def names_that_go_on(case):
    """What follows a pattern in a name doesn't count."""
    for transfer in case.transfers:
        for version in list(transfer.tails):
            tail = transfer.tails.pop(version)
            old = f"{transfer.target}/{transfer.named(version)}"
            if version in transfer.instances:
                case.paths.update({path: old + tail + path[len(old) :] for path in placed(old, transfer.instances[version])})


def marks_in_names(case):
    """A name whose version would have a mark, `~` or `^`, is none of the pattern."""
    for transfer in case.transfers:
        for version in [version for version in transfer.offers if MARKED.search(version)]:
            del transfer.offers[version]
        for version in [version for version in transfer.instances if MARKED.search(version)]:
            entry = transfer.instances.pop(version)
            path = f"{transfer.target}/{transfer.named(version)}"
            aside = f"{transfer.target}/aside {version}"
            case.host.update(with_parents(placed(aside, entry)))
            case.paths.update({other: path + other[len(aside) :] for other in placed(aside, entry)})


def versions_with_commas(case):
    """A version may have a comma there."""
    for transfer in active(case):
        case.unlisted |= {version for version in transfer.offers if "," in version}


def equal_versions(case):
    """Of several versions that are equal but for their bytes one alone is told, and one is installed, not always the same."""
    for transfer in active(case):
        versions = sorted(transfer.offers, key=ORDER)
        for one, other in zip(versions, versions[1:]):
            if compared(one, other) == 0:
                case.same[other] = one
                came = f"{transfer.target}/{transfer.named(other)}"
                transfer.offers.pop(one if any(path == came or path.startswith(f"{came}/") for path in case.left) else other)


def manifests_that_are_refused(case):
    """A manifest whose last line has no newline, that lists a name with a slash, or that is empty, is refused."""
    for source, change in list(case.manifests.items()):
        text = change(b"%b  a\n" % (b"0" * 64))
        if not text.endswith(b"\n") or b"/" in text:
            case.manifests[source] = lambda text: b"no manifest\n"


def resources_that_are_others(case):
    """Where a file has another digest than its manifest lists, what makes room for it is gone all the same, and targets were made."""
    version = case.wrong
    if is_another(case):
        case.lists_before = False
        case.host.update({transfer.target: directory() for transfer in active(case) if transfer.target in case.left and transfer.target not in case.host})
        for transfer in active(case):
            if version not in transfer.instances:
                make_room(transfer, version)


def is_another(case):
    """Whether the update came to a file that is another one than listed, and failed there."""
    return case.wrong in offered(case) and case.answer[0] == "failed"


def make_room(transfer, version):
    """Takes the oldest instances away that no version protects, until one less is left than may stay."""
    removable = [one for one in sorted(transfer.instances, key=ORDER) if one not in transfer.protect and one != version]
    while len(transfer.instances) > transfer.most - 1 and removable:
        del transfer.instances[removable.pop(0)]


# In the order in which they are taken off.
ROWS = [
    *(files_on_the_way, absent_numbers_of_instances, several_protected_versions_on_a_line, marks_in_names, names_that_go_on, equal_versions),
    *(versions_with_commas, offers_below_the_least_version, downgrades_below_a_version_in_part, versions_in_part_below_others),
    *(resources_that_are_others, more_protected_versions_than_may_stay, targets_that_have_the_version, links_to_what_was_there),
    *(features_that_are_off, absent_modes, modes_of_directories, texts_of_links, links_at_targets, what_stands_at_links),
    *(what_stands_at_new_names, manifests_that_are_refused),
]
