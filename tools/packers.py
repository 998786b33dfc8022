"""Packs what is no folder: an archive, a package, an image of a container as one resource or with its layers as resources, and the image
of a disk or of a file system."""
import os
import stat

from archives import Budget, LayerReader, Reader, is_of_aufs
from attributes import ROOT, owner_of
from containers import LAYOUT, Opened, layers_of
from debs import data_of
from disks import read_disk
from entries import MOST_LISTED, USUAL_MODE, Refused, shown
from layers import Laid, settle
from losses import Losses
from packing import FILES, TEXT, Files, Made, write_text
from sources import DISKS, IMAGES
from trees import DIRECTORIES, DIRECTORY, FILE, OPAQUE, Entry, Tree
from usr_merge import below_usr, beside_usr, warning
from walking import Place


class Choice:
    """What of an archive is taken: nothing at and below the paths that are left out, which have to come, and no special entry where
    these are left out."""

    def __init__(self, given, tells):
        self.given, self.tells = given, tells
        self.without = {b"/".join(filter(None, path.split(b"/"))): path for path in given.without}
        self.missing, self.owners = dict(self.without), {}

    def leaves_out(self, path):
        if not self.without:
            return False
        names = path.split(b"/")
        ways = (b"/".join(names[:count]) for count in range(1, len(names) + 1))
        found = [way for way in ways if way in self.without]
        for way in found:
            self.missing.pop(way, None)
        return bool(found)

    def owner(self, told):
        """The owner that an entry gets, which stands in memory once. What comes from no folder tells its owners as root sees them."""
        found = self.owners.get(told)
        if found is None:
            found = self.owners[told] = ROOT if self.given.root_owned else owner_of(*told)
        return found

    def leaves_out_special(self, path):
        if self.given.leave_out_special:
            self.tells.tell(f"left out: {shown(os.path.join(self.given.SOURCE, path))}")
        return self.given.leave_out_special

    def end(self):
        if self.missing:
            raise Refused(*(f"--without {shown(path)}: nothing below {shown(self.given.SOURCE)} stands there" for path in self.missing.values()))


class Packer:
    """Writes what comes from a source into a room beside the place of its resource."""

    def __init__(self, given, tells, source, place):
        self.given, self.tells, self.source, self.place = given, tells, source, place
        self.choice, self.budget = Choice(given, tells), Budget(given.most_bytes)

    def pack(self, room):
        shelf = self.source.shelf(room) if self.source.kind in IMAGES else None
        if self.given.layers and not shelf:
            raise Refused(f"{self.source.what}: no image of a container, of which --layers packs the layers")
        if self.source.kind in DISKS:
            self.disk(room)
        elif not shelf:
            self.archive(room)
        elif self.given.layers:
            self.layers(room, shelf)
        else:
            self.image(room, shelf)

    def disk(self, room):
        tree, files = Tree(), Files(room, self.place, self.tells)
        read_disk(self.source.kind, self.source.kept(room), room, self.source.what, self.tells, tree, self.choice, files, self.budget)
        self.finish(room, tree, files)

    def archive(self, room):
        source = self.source
        stream = data_of(source.stream, source.stack) if source.kind == "deb" else source.stream
        reads = LayerReader if source.kind == "layer" else Reader
        tree, files = Tree(), Files(room, self.place, self.tells)
        files.hides = self.choice.leaves_out if self.given.without else None
        if reads is LayerReader:
            files.hides = self.leaves_out_of_layer
        self.read(reads, stream, tree, files)
        self.finish(room, tree, files)

    def read(self, reads, stream, tree, files, is_whole=False):
        reads(stream, tree, self.choice, files, self.budget, is_whole).read()
        if tree.twice.count:
            self.tells.tell(f"{stream.what}: names that came more than once, of which the last counts: {tree.twice}")

    def leaves_out_of_layer(self, path):
        return self.choice.leaves_out(path) or is_of_aufs(path)

    def layer(self, shelf, layer, tree, files):
        """Reads a layer of an image."""
        opened = Opened(shelf, layer, self.source.what, self.source.stack)
        self.read(LayerReader, opened.stream, tree, files, bool(opened.compared))
        opened.end()

    def listed(self, shelf):
        """The layers of an image, the lowest first."""
        is_docker = self.given.format == "docker" or (self.given.format is None and not shelf.has(LAYOUT))
        try:
            return layers_of(shelf, is_docker, self.given.image)
        except Refused as reason:
            raise Refused(f"{self.source.what}: {reason}") from None

    def image(self, room, shelf):
        """Lays the layers of an image over one another. The topmost is read first, so that no file is written that another one hides."""
        laid, files = Laid(), Files(room, self.place, self.tells)
        for layer in reversed(self.listed(shelf)):
            tree, files.hides = Tree(), lambda path: self.leaves_out_of_layer(path) or laid.cover.hides(path)
            self.layer(shelf, layer, tree, files)
            laid.add(tree)
            check_entries(laid.trees)
            if laid.cover.is_whole:
                break
            files.forget_hidden()
        self.finish(room, laid.end(), files)

    def layers(self, room, shelf):
        """Packs each layer of an image as a resource of its own, whose name is its number."""
        listed, trees = self.listed(shelf), []
        numbers = [b"%0*d" % (max(2, len(str(len(listed)))), at) for at in range(1, len(listed) + 1)]
        for layer, number in zip(listed, numbers):
            tree, files = Tree(), Files(room, self.place, self.tells, (number,))
            files.hides = self.leaves_out_of_layer
            self.layer(shelf, layer, tree, files)
            if tree.top.kind == OPAQUE:
                raise Refused(f"{self.source.what}: {shown(layer.path)}: it hides all that is below it, which no tree text says")
            trees.append(tree)
            check_entries(trees)
            files.close()
        settle(trees)
        self.losses(*trees)
        with Made(room) as folders:
            for tree, number in zip(trees, numbers):
                write_text(folders.at((FILES,)), number + b".tree", tree.lines())

    def finish(self, room, tree, files):
        """Writes the text of a tree whose files are written."""
        files.forget_hidden()
        places = [Place((path,), (path,), kind_of(entry)) for path, entry in tree.entries.items() if b"/" not in path]
        if self.given.usr_merge and beside_usr(places):
            self.merge(tree, files)
        elif beside := beside_usr(places):
            self.tells.tell(warning(beside))
        self.losses(tree)
        write_text(room, TEXT, tree.lines())

    def merge(self, tree, files):
        """Puts below usr what stands beside it."""
        entries, names = {}, [tuple(path.split(b"/")) for path in tree.paths()]
        places = [Place(way, way, kind_of(tree.entries[b"/".join(way)])) for way in names]
        for place in below_usr(self.given.SOURCE, places):
            old, new = b"/".join(place.names), b"/".join(place.path)
            entries[new] = tree.entries.get(old) or Entry(DIRECTORY, USUAL_MODE)
            if entries[new].kind == FILE and old != new:
                files.move(old, new)
        tree.entries = entries

    def losses(self, *trees):
        """Tells what is lost, or refuses it."""
        self.choice.end()
        losses = Losses(self.given.SOURCE)
        for tree in trees:
            losses.take_tree(tree)
        if self.given.strict and losses.lines():
            raise Refused(*losses.lines())
        self.tells.tell(*losses.lines())


def check_entries(trees):
    """Refuses layers that would take more memory than what a run of tools/fetch lists."""
    if sum(len(tree.entries) for tree in trees) > MOST_LISTED:
        raise Refused(f"more than {MOST_LISTED:,} entries in all layers")


def kind_of(entry):
    """The kind of an entry as a place has it, which tells directories from all else."""
    return stat.S_IFDIR if entry.kind in DIRECTORIES else stat.S_IFREG
