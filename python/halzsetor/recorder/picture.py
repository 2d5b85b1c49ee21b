"""The picture of a recorded graph: what survives, what is lost, and what was set aside."""
from collections import Counter

from ..dot import Picture, times
from .explain import Graph, Records, WrongVerdict

# so many objects are drawn at most
MOST = 60
LOST = {"fillcolor": "gray85"}
SET_ASIDE = {"fillcolor": "lightsalmon"}
# what was found is not what is unreachable
WRONG = {"color": "red", "penwidth": "2"}


def picture_of(records: Records, position: int) -> str:
    """The picture of a graph of a file of records, by its position there."""
    records.must_be_readable()
    graph = records.graph(position)
    if any(number > 1 for number in Counter(member.serial for member in graph.members).values()):
        raise WrongVerdict(f"graph {position} of {records.out} has a member twice, and can't be drawn")
    return Drawing(graph, records.names(position), position).text()


class Drawing:
    """Draws a graph; of a large one what was found, what it refers to and what refers to it."""

    def __init__(self, graph: Graph, names: dict[int, str], position: int) -> None:
        self.graph = graph
        self.names = names
        self.found = set(graph.lost)
        self.set_aside = set(graph.legacy)
        held = graph.held()
        serials = [member.serial for member in graph.members]
        self.wrong = {serial for serial in serials if (serial in held) == (serial in self.found)}
        self.occurrences = graph.occurrences()
        self.picture = Picture(f"graph {position}, a collection of generation {graph.generation}")

    def text(self) -> str:
        """The picture as DOT."""
        drawn = self.drawn()
        for member in self.graph.members:
            if member.serial in drawn:
                self.box(member.serial, member.degree)
        for member in self.graph.members:
            for target, number in Counter(member.referents).items():
                if member.serial in drawn and target in drawn:
                    self.picture.arrow(member.serial, target, label=times(number))
        left = [member.serial for member in self.graph.members if member.serial not in drawn]
        if left:
            lost = len(self.found.intersection(left))
            text = f"{len(left) - lost} more survive" + f"\n{lost} more are lost" * (lost > 0)
            self.picture.box("more", text, shape="plaintext", style="")
        return self.picture.text()

    def drawn(self) -> set[int]:
        """The members that are drawn: the wrong ones first, then what was found, then what is next to it."""
        members = self.graph.members
        near = {target for member in members if member.serial in self.found for target in member.referents}
        ranks = {}
        for member in members:
            is_near = member.serial in near or not self.found.isdisjoint(member.referents)
            ranks[member.serial] = (member.serial not in self.wrong, member.serial not in self.found, not is_near)
        ranked = sorted(ranks, key=ranks.get)
        if len(ranked) > MOST:
            ranked = [serial for serial in ranked if ranks[serial] != (True, True, True)][:MOST]
        return set(ranked)

    def box(self, serial: int, degree: int) -> None:
        """A member."""
        name = self.names.get(serial, f"serial {serial}").partition(" at 0x")[0]
        outside = degree - self.occurrences[serial]
        text = f"{name}\n{degree} = {self.occurrences[serial]} + {outside} from outside" if outside > 0 else name
        how = SET_ASIDE if serial in self.set_aside else LOST if serial in self.found else {}
        self.picture.box(serial, f"{text}\n{self.fate(serial)}", **how | (WRONG if serial in self.wrong else {}))

    def fate(self, serial: int) -> str:
        """What becomes of a member, by the record."""
        if serial in self.set_aside:
            return "set aside"
        return "lost" if serial in self.found else "survives"
