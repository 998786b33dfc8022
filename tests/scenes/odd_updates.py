"""What is done to random transfers so that rows of told_updates.py have something to tell; each has the name of its row."""
from scenes.real_trees import directory, file, link
from scenes.told_updates import offered, present
from scenes.transfers_beside import resource


def absent_numbers_of_instances(chance, case):
    chance.choice(case.transfers).most = chance.choice((None, 1))


def several_protected_versions_on_a_line(chance, case):
    transfer = chance.choice(case.transfers)
    transfer.protect, transfer.on_a_line = (list(transfer.instances) + ["1", "2"])[:2], True


def more_protected_versions_than_may_stay(chance, case):
    """Two or three of a target are protected, of which two may stay, and a greater version is offered."""
    transfer = chance.choice(case.transfers)
    transfer.instances = {version: resource(chance, transfer.kind, version, "target") for version in ("1", "2", "3")}
    transfer.protect, transfer.most = ["1", "2", "3"][: chance.choice((2, 3))], 2
    case.host.setdefault(transfer.target, directory())
    for one in case.transfers:
        one.offers["77"] = resource(chance, one.kind, "77", "source")
    case.command = chance.choice(("update", "vacuum"))


def downgrades_below_a_version_in_part(chance, case):
    """The first target has a version more than the others, and what is offered is older."""
    if len(case.transfers) < 2:
        return
    for transfer in case.transfers:
        transfer.instances = {version: resource(chance, transfer.kind, version, "target") for version in ("4", "9")}
        transfer.offers = {version: resource(chance, transfer.kind, version, "source") for version in chance.choice((("1",), ("2",), ("2.5",), ("10",)))}
        case.host.setdefault(transfer.target, directory())
    del case.transfers[-1].instances["9"]
    case.command = chance.choice(("update", "update", "vacuum"))


def versions_in_part_below_others(chance, case):
    """Two versions are there in part, and the lower one is offered."""
    if len(case.transfers) < 2:
        return
    for transfer in case.transfers:
        transfer.instances = {}
        transfer.offers = {"3": resource(chance, transfer.kind, "3", "source")}
        case.host.setdefault(transfer.target, directory())
    first = case.transfers[0]
    first.instances = {version: resource(chance, first.kind, version, "target") for version in ("3", "9")}
    case.command = chance.choice(("update", "update 3"))


def features_that_are_off(chance, case):
    case.features = {"beta": chance.random() < 0.3}
    chance.choice(case.transfers).features = chance.choice((["beta"], ["gamma"], ["gamma", "beta"]))


def offers_below_the_least_version(chance, case):
    chance.choice(case.transfers).minimum = chance.choice(("2", "3", "10"))


def absent_modes(chance, case):
    transfer = chance.choice(case.transfers)
    if not transfer.is_directory:
        transfer.mode = None
        mode = chance.choice((0o600, 0o640, 0o755, 0o444))
        transfer.offers = {version: file(entry[2], mode) for version, entry in transfer.offers.items()}


def modes_of_directories(chance, case):
    for transfer in case.transfers:
        if transfer.is_directory:
            transfer.mode = chance.choice((None, "700", "0750"))
            for entries in transfer.offers.values():
                entries[""] = directory(chance.choice((0o700, 0o711, 0o1777)))


def links_at_targets(chance, case):
    transfer = chance.choice(case.transfers)
    case.host[f"{transfer.target}-there"] = directory()
    case.host[transfer.target] = link(f"/{transfer.target}-there")
    transfer.instances = {}


def what_stands_at_links(chance, case):
    transfer = chance.choice(case.transfers)
    transfer.link = f"/var/taken-{transfer.name}"
    case.host[transfer.link[1:]] = file(b"taken\n")


def what_stands_at_new_names(chance, case):
    """A directory stands where a file is to come, and a file where a directory is."""
    transfer = chance.choice(case.transfers)
    for version in transfer.offers:
        if version not in transfer.instances:
            path = f"{transfer.target}/{transfer.named(version)}"
            case.host.setdefault(transfer.target, directory())
            if case.host[transfer.target][0] == "d":
                case.host.update({path: file(b"there\n")} if transfer.is_directory else {path: directory(), f"{path}/in": file()})


def files_on_the_way(chance, case):
    transfer = chance.choice(case.transfers)
    transfer.instances = {}
    case.host[transfer.target] = file()


def names_that_go_on(chance, case):
    """A file of a target goes on after the pattern, which has an end."""
    transfer = chance.choice(case.transfers)
    if not transfer.pattern.endswith("@v"):
        for version in list(transfer.instances)[:1]:
            transfer.tails[version] = chance.choice(("x", ".raw", "~"))


def marks_in_names(chance, case):
    transfer = chance.choice(case.transfers)
    version = chance.choice(("99~rc1", "0^post", "2~1"))
    case.host.setdefault(transfer.target, directory())
    for one in case.transfers:
        one.offers[version] = resource(chance, one.kind, version, "source")
    if case.host[transfer.target][0] == "d":
        transfer.instances[version] = resource(chance, transfer.kind, version, "target")


def versions_with_commas(chance, case):
    for transfer in case.transfers:
        transfer.offers["0,1"] = resource(chance, transfer.kind, "0,1", "source")


def equal_versions(chance, case):
    case.transfers = case.transfers[:1]
    for transfer in case.transfers:
        for version in "77.0", "77.00":
            transfer.offers[version] = resource(chance, transfer.kind, version, "source")


def manifests_that_are_refused(chance, case):
    for transfer in case.transfers:
        if transfer.kind == "url-file":
            case.manifests[transfer.source] = chance.choice((lambda text: text.rstrip(b"\n"), lambda text: text + b"%b  a/b\n" % (b"0" * 64)))


def manifests_as_they_are_taken(chance, case):
    """The same in both: upper case, a star, a line twice; and lines that are none."""
    ways = (bytes.upper, lambda text: text.replace(b"  ", b" *"), lambda text: text + text, lambda text: text + b"\n", lambda text: b"\\" + text, lambda text: b"# x\n" + text)
    way = chance.choice(ways)
    for transfer in case.transfers:
        if transfer.kind == "url-file":
            digits = way is bytes.upper
            case.manifests[transfer.source] = upper if digits else way


def upper(text):
    return b"".join(line[:64].upper() + line[64:] for line in text.splitlines(keepends=True))


def resources_that_are_others(chance, case):
    """The greatest version that is offered is another one in the source of a URL than its manifest lists."""
    transfer = next((transfer for transfer in case.transfers if transfer.kind == "url-file"), None)
    versions = offered(case) - present(case)[0]
    if transfer and versions:
        case.wrong = chance.choice(sorted(versions))
        case.command = f"update {case.wrong}"
        case.wrongs[transfer.name] = case.wrong


ODD = [
    *(absent_numbers_of_instances, several_protected_versions_on_a_line, more_protected_versions_than_may_stay),
    *(downgrades_below_a_version_in_part, versions_in_part_below_others, features_that_are_off, offers_below_the_least_version),
    *(absent_modes, modes_of_directories, links_at_targets, what_stands_at_links, what_stands_at_new_names, files_on_the_way),
    *(names_that_go_on, marks_in_names, versions_with_commas, equal_versions, manifests_that_are_refused, manifests_as_they_are_taken),
    resources_that_are_others,
]
