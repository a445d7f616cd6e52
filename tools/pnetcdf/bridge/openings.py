"""The openings of datasets by a traced program: which ranks took part, and what stands before and after each."""
import os
from dataclasses import dataclass, field

from .ranks import RankMerger
from .traces import TraceFault, path_of, read_heads


@dataclass
class Opening:
    """One create or open of a dataset with its ranks, by their numbers in its communicator."""
    path: str
    world: tuple
    how: str
    ranks: list = field(default_factory=list)   # a RankMerger each, None where a rank's trace is missing
    copy: str = None            # the dataset as it was before
    after: object = None        # the opening, or the deletion, of the same path that comes next

    @property
    def shown(self):
        """The path, whether it was created or opened, and by how many ranks."""
        count = len(self.world)
        how = "created" if self.how == "create" else "opened"
        return "%s, %s by %d rank%s" % (shown_path(self.path), how, count, "" if count == 1 else "s")

    @property
    def changed(self):
        """Whether the dataset may be another one behind it: PnetCDF didn't refuse it, or a copy tells what was before."""
        first = next((rank.opened for rank in self.ranks if rank is not None), None)
        return self.copy is not None or first is None or not first.refused


@dataclass
class Deletion:
    path: str
    changed = True
    copy: str = None
    how: str = "delete"
    after: object = None


@dataclass
class Traced:
    """What the traces of a run hold."""
    openings: list
    remarks: list
    traces: list


def shown_path(path):
    """The path as it is shown: from the user's folder on where it lies below it, and without bytes that are no text."""
    own = os.path.relpath(path)
    return os.fsencode(path if own.startswith("..") else own).decode("utf-8", "replace")


class Reader:
    """Reads the traces of all ranks, one after another."""

    def __init__(self):
        self.found, self.chain, self.seen = {}, [], {}

    def read(self, trace):
        open_now, self.seen = {}, {}
        for event in trace.events():
            try:
                self.take(trace, event, open_now)
            except (KeyError, TypeError) as fault:
                raise TraceFault("%s: call %s, %s, isn't told in full: %r" % (trace.path, event.given.get("n"), event.call, fault)) from None

    def take(self, trace, event, open_now):
        """One call; the datasets that are open now have their rank's merger and their communicator."""
        if event.call == "barrier":
            for merger, world in open_now.values():
                merger.barrier(event.given["over"], world)
        elif event.call == "delete":
            self.chain.append((event.given.get("time", 0), Deletion(path_of(event.given["path"]), trace.copy(event.given.get("before")))))
        elif event.call in ("create", "open"):
            open_now[event.given["dataset"]] = self.opened(trace, event)
        elif event.given.get("dataset") in open_now:
            open_now[event.given["dataset"]][0].take(event)

    def opened(self, trace, event):
        given = event.given
        world = tuple(given["world"])
        key = given.get("opening") or self.key_of(given["path"], world)
        opening = self.found.get(key)
        if opening is None:
            opening = self.found[key] = Opening(path_of(given["path"]), world, event.call, [None] * len(world))
            self.chain.append((given.get("time", 0), opening))
        merger = opening.ranks[given["rank"]] = RankMerger(event, trace, given["rank"])
        opening.copy = trace.copy(given.get("before")) or opening.copy
        return merger, world

    def key_of(self, path, world):
        """An opening at which the ranks never came together is known by its number among those of its path."""
        number = self.seen[path, world] = self.seen.get((path, world), 0) + 1
        return path, world, number


def read_openings(paths):
    """All openings of datasets in the traces of one run, in the order in which the first rank of each made them."""
    traces, remarks = read_heads(paths)
    reader = Reader()
    for trace in traces:
        reader.read(trace)
    last, links = {}, [link for _, link in sorted(reader.chain, key=lambda pair: pair[0])]
    for link in links:
        if link.changed and link.path in last:
            last[link.path].after = link
        last[link.path] = link if link.changed else last.get(link.path, link)
    return Traced([link for link in links if isinstance(link, Opening)], remarks, traces)
