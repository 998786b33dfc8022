"""Shows generations at a root: the hierarchies of a state, each by one step, and takes away what isn't to be shown any more.

All that may be refused comes before the first step: the mounts are whole and stand nowhere, and the notes of what is shown are durable.
A hierarchy that shows a generation gets the next one beneath it, which shows once the one above goes; where the kernel hasn't that, the
next one over it.
"""
import errno
import os
from contextlib import contextmanager
from typing import NamedTuple

import calls
import ending
import homes
import mounts
import risks
import trials
from active import BEFORE, NOW, State, machine
from entries import Refused, shown
from mounts import SHOWN

# What a kernel says where it doesn't mount beneath: it hasn't that, or what is mounted above is shared so that it can't be.
NO_BENEATH = errno.EINVAL, errno.ENOSYS, errno.EBUSY, errno.EPERM


class Ready(NamedTuple):
    """What is about to be shown: the state with its root and the hierarchies that the tree has, and of each its mount and its place."""

    state: State
    trees: dict
    places: dict


class Choice(NamedTuple):
    """A state that is to be shown: whether its image was made just now, and whether what would brick a host is looked for."""

    state: State
    is_new: bool
    is_guarded: bool


@contextmanager
def root_at(path):
    """The handle of a root, and its path without links."""
    handle = os.open(path, os.O_RDONLY | os.O_DIRECTORY)
    try:
        yield handle, os.readlink(f"/proc/self/fd/{handle}")
    finally:
        os.close(handle)


@contextmanager
def wanted(active, state, kind, paths):
    """What is to be mounted of a generation that is made."""
    number = state.generation
    image = os.open(active.image(number), os.O_RDONLY | os.O_NOFOLLOW, dir_fd=active.handle)
    try:
        flags = calls.READ_ONLY | calls.NO_DEV | (0 if state.has_suid else calls.NO_SUID)
        source = mounts.source_of(kind, number, active.store)
        yield mounts.Wanted(image, active.links, os.path.join(active.path, "files"), source, flags, paths)
    finally:
        os.close(image)


def place_of(root, path, name):
    """The handle of a hierarchy below a root."""
    where = shown(os.path.join(path, name))
    try:
        return calls.open_below(root, os.fsencode(name))
    except FileNotFoundError:
        raise Refused(f"{where}: the root has no such directory, so that nothing can be shown there: make it") from None
    except OSError as error:
        if error.errno in (errno.ENOTDIR, errno.ELOOP):
            raise Refused(f"{where}: it is a link or no directory, so that nothing can be shown there") from None
        raise


def shown_here(active):
    """The mounts of this process by which generations of the store are shown, each at a root that is noted. Other mounts may be copies of
    them, as those below a bound root. Where a run was ended before it noted one, all are."""
    word, roots = mounts.store_word(active.store), {state.root for state in map(active.state, (NOW, BEFORE)) if state}
    found = [mount for mount in mounts.listed().values() if mount.said and mount.said[::2] == (SHOWN, word)]
    return [mount for mount in found if not roots or root_of(mount) in roots]


def root_of(mount):
    return os.path.dirname(os.fsdecode(mount.place))


def shown_at(active, root):
    return [mount for mount in shown_here(active) if root_of(mount) == root]


def check_root(active, root):
    """Refuses a second root, since what is shown is noted once."""
    if other := next((mount for mount in shown_here(active) if root_of(mount) != root), None):
        raise Refused(f"{shown(other.place)}: a generation of this store is shown there, at another root: `off` takes it away")


def show(active, path, choice):
    """Shows a state in place of what is shown."""
    with root_at(choice.state.root) as (root, where):
        check_root(active, where)
        ready = made_ready(active, path, choice, root, where)
    ending.hold()
    try:
        exchange(active, ready, not choice.is_new and is_like(active.state(NOW), ready.state))
    finally:
        ending.let_go()
    return ready.state


def made_ready(active, path, choice, root, where):
    """The mounts of a state, once nothing is left to refuse it."""
    state, names = choice.state, tuple(choice.state.hierarchies)
    with wanted(active, state, SHOWN, tuple(map(os.fsencode, names))) as asked:
        found, way = mounts.trees(asked) if names else ((), state.way)
        trees = {name: tree for name, tree in zip(names, found) if tree is not None}
        risks.check_way(path, where, trees)
        places = {name: place_of(root, where, name) for name in trees}
        check_others(active, where, places)
        if choice.is_guarded and trees and is_own_root(root):
            risks.check_host(asked, names)
    return Ready(state._replace(root=where, way=way, hierarchies={name: state.hierarchies[name] for name in trees}), trees, places)


def exchange(active, ready, is_as_before):
    """Notes what is to be shown, and lets it stand in place of what is shown."""
    trials.take(active.handle, ready.state.generation)
    note(active, ready.state)
    for name, tree in ready.trees.items():
        put(active, ready.state.generation, tree, ready.places[name], is_as_before)
    take_away(active, ready.state.root, ready.trees)


def is_own_root(root):
    return os.path.samestat(os.fstat(root), os.stat("/"))


def is_like(now, state):
    """Whether what is shown of a generation already needn't be mounted anew."""
    return now is not None and (now.generation, now.has_suid) == (state.generation, state.has_suid)


def check_others(active, where, places):
    """Refuses a hierarchy at which another store's generation is shown."""
    listed, word = mounts.listed(), mounts.store_word(active.store)
    for name, place in places.items():
        path, there = os.path.join(where, name), listed[mounts.number_at(place)]
        if there.place == os.fsencode(path) and there.said and there.said[::2] != (SHOWN, word):
            raise Refused(f"{shown(path)}: a generation of another store is shown there, or one is mounted: take it away first")


def note(active, state):
    """Notes what is to be shown, and what was shown until now. On the way back what is to be shown comes first, since it stands nowhere
    else; else what was shown does."""
    now = active.state(NOW)
    rows = [(BEFORE, now), (NOW, state)] if now is None or now.generation != state.generation else [(NOW, state)]
    for name, noted in reversed(rows) if state.is_back else rows:
        active.put(name, noted)


def put(active, number, tree, place, is_as_before):
    """Lets a tree stand at a hierarchy, in place of the generation that is shown there."""
    listed, word = mounts.listed(), mounts.store_word(active.store)
    top = listed[mounts.number_at(place)]
    if not top.said or top.said[::2] != (SHOWN, word):
        calls.attach(tree, place)
        return
    if is_as_before and top.said[1] == number:
        return
    if is_as_before and is_shown_beneath(listed, top, number, word):
        # a run before was ended between the two calls
        calls.detach(place)
        return
    try:
        calls.attach(tree, place, calls.BENEATH)
    except OSError as error:
        if error.errno not in NO_BENEATH:
            raise
        calls.attach(tree, place)
        return
    calls.detach(place)


def is_shown_beneath(listed, top, number, word):
    below = listed.get(top.above)
    return below is not None and below.place == top.place and below.said == (SHOWN, number, word)


def take_away(active, where, kept):
    """Takes away what is shown at a root, but for these hierarchies."""
    while others := [mount for mount in shown_at(active, where) if os.path.basename(os.fsdecode(mount.place)) not in kept]:
        for path in {mount.place for mount in others}:
            take_off(path, {mount.number for mount in others})


def take_off(path, ours):
    """Takes away the mount at a path, which is one of these."""
    place = calls.open_without_links(path)
    try:
        if mounts.number_at(place) not in ours:
            raise Refused(f"{shown(path)}: something else is mounted over what is shown there: take that away first")
        calls.detach(place)
    finally:
        os.close(place)


def off(active):
    """Takes all away that is shown, and notes it."""
    if now := active.state(NOW):
        active.put(BEFORE, now)
    active.put(NOW, None)
    take_all(active)


def take_all(active):
    for root in set(map(root_of, shown_here(active))):
        take_away(active, root, ())


def back(active, path, is_guarded):
    """Shows what was shown before, which may be nothing, and gives it. Where a run before was ended on its way back, this one goes on."""
    now, before = active.state(NOW), active.state(BEFORE)
    if now is not None and now.is_back and not is_shown(active, now):
        return again(active, path, now, True, is_guarded)
    if now is None and shown_here(active):
        take_all(active)
        return None
    if before is not None:
        return again(active, path, before, True, is_guarded)
    if now is None:
        raise Refused("nothing was shown before")
    active.put(NOW, None)
    active.put(BEFORE, now)
    take_all(active)
    return None


def is_shown(active, state):
    """Whether each hierarchy of a state shows its generation, and nothing else is shown."""
    listed = mounts.listed()
    with root_at(state.root) as (root, where):
        places = [place_of(root, where, name) for name in state.hierarchies]
    wanted = SHOWN, state.generation, mounts.store_word(active.store)
    named = {os.path.join(where, name) for name in state.hierarchies} == {os.fsdecode(mount.place) for mount in shown_at(active, where)}
    return named and all(listed[mounts.number_at(place)].said == wanted for place in places)


def again(active, path, state, is_back, is_guarded):
    """Shows what was shown once."""
    if not active.known(state.generation):
        advice = "`switch` shows the one that the store has now, and `switch --mark=G` a mark"
        raise Refused(f"generation {state.generation}, which was shown, isn't made any more", advice)
    return show(active, path, Choice(state._replace(machine=machine(), is_back=is_back), False, is_guarded))


def boot(active, path, is_guarded, tells):
    """Shows what was shown when the machine stopped; what was shown before that where it was tried then, and never found healthy."""
    now = active.state(NOW)
    is_first = not shown_here(active) and (now is None or now.machine != machine())
    if now is not None and trials.is_spent(active.handle, now.generation):
        tells.tell(f"generation {now.generation} was tried and not found healthy: what was shown before is shown in its place")
        shows = back(active, path, is_guarded)
    else:
        shows = now and again(active, path, now, False, is_guarded)
    if is_first:
        clean(active)
    return shows


def clean(active):
    """Takes away what was made of generations that nothing shows, and that nothing names."""
    kept = {state.generation for state in map(active.state, (NOW, BEFORE)) if state}
    kept |= {mount.said[1] for mount in mounts.listed().values() if mount.said and mount.said[2] == mounts.store_word(active.store)}
    kept |= {trial[0] for trial in (trials.state(active.handle),) if trial}
    gone = [number for number in active.made() if number not in kept]
    for number in gone:
        active.drop(number)
    if gone:
        images = ((number, active.bytes_of(active.image(number))) for number in active.made())
        homes.drop(active.links, [home for number, image in images for home in homes.homes_of(image, number)])
