"""The models that tools/certify.py knows, and how a network is flattened to one automaton."""
import itertools
import re
from collections import namedtuple

# --- Models -------------------------------------------------------------------
#
# A component has limits by location, and edges (source, label, target, guard,
# clocks set to zero); it starts at the source of its first edge. Components that
# share a label move on it together; a label of one component alone is a step of
# its own. An integer variable is a component without clocks.

Component = namedtuple("Component", "limits edges")
Model = namedtuple("Model", "clocks components accepting")


def recorder(triggers, attempts):
    """The survey recorder: x runs since the trigger, y since the present action began."""
    limits = {
        "measuring": "x<=3",
        "writing": "y<=1 x<=12",
        "waiting": "y<=3 x<=12",
        "backing off": "y<=1 x<=12",
        "reserve": "x<=14",
    }
    edges = [
        ("armed", "trigger", "measuring", "", "x y"),
        ("measuring", "measured", "writing", "x>=1", "y"),
        ("writing", "sent", "waiting", "y=1", "y"),
        ("waiting", "ready", "stored", "y>=1", ""),
        ("waiting", "failed", "backing off", "y>=2", "y"),
        ("backing off", "again", "writing", "y=1", "y"),
        ("writing", "timeout", "reserve", "x=12", ""),
        ("waiting", "timeout", "reserve", "x=12", ""),
        ("backing off", "timeout", "reserve", "x=12", ""),
        ("reserve", "copied", "stored", "", ""),
    ]
    if triggers == "many":
        edges.append(("stored", "next trigger", "measuring", "x>=20", "x y"))
        for unsaved in ("measuring", "writing", "waiting", "backing off", "reserve"):
            edges.append((unsaved, "next trigger", "lost", "x>=20", ""))
    if attempts is None:
        return [Component(limits, edges)]
    edges.append(("waiting", "given up", "reserve", "y>=2", ""))
    return [Component(limits, edges), attempt_counter(attempts)]


def attempt_counter(most):
    """Counts the writes that were sent; at the last one a failure is given up."""
    edges = [(n, "sent", n + 1, "", "") for n in range(most)]
    edges += [(n, "failed", n, "", "") for n in range(1, most)]
    edges += [(most, "given up", 0, "", "")]
    edges += [(n, label, 0, "", "") for label in ("ready", "timeout") for n in range(most + 1)]
    return Component({}, edges)


def fischer():
    """Fischer's protocol for two processes; the shared variable is a third component."""
    components = []
    shared = []
    for me, x in ((1, "x"), (2, "y")):
        edges = [
            ("idle", f"{me} reads 0", "request", "", x),
            ("request", f"{me} writes {me}", "wait", "", x),
            ("wait", f"{me} reads 0", "request", "", x),
            ("wait", f"{me} reads {me}", "critical", f"{x}>2", ""),
            ("critical", f"{me} writes 0", "idle", "", ""),
        ]
        components.append(Component({"request": f"{x}<=2"}, edges))
        shared += [(value, f"{me} reads {value}", value, "", "") for value in (0, me)]
        shared += [(old, f"{me} writes {new}", new, "", "") for new in (me, 0) for old in (0, 1, 2)]
    return components + [Component({}, shared)]


def train_gate():
    """A train (x), a gate (y) and the gate's controller (z)."""
    train = [
        ("far", "approach", "near", "", "x"),
        ("near", "enter", "in", "x>2", ""),
        ("in", "exit", "far", "", ""),
    ]
    gate = [
        ("up", "lower", "falling", "", "y"),
        ("falling", "down", "down", "", ""),
        ("down", "lower", "down", "", ""),
        ("down", "raise", "rising", "", "y"),
        ("rising", "up", "up", "y>=1", ""),
        ("rising", "lower", "falling", "", "y"),
    ]
    controller = [
        ("idle", "approach", "lowering", "", "z"),
        ("lowering", "lower", "idle", "", ""),
        ("idle", "exit", "raising", "", "z"),
        ("raising", "raise", "idle", "", ""),
        ("raising", "approach", "lowering", "", "z"),
    ]
    return [
        Component({"near": "x<=5", "in": "x<=5"}, train),
        Component({"falling": "y<=1", "rising": "y<=2"}, gate),
        Component({"lowering": "z<=1", "raising": "z<=1"}, controller),
    ]


MODELS = {
    "lost-shot": Model("xy", recorder("many", None), lambda l: l[0] == "lost"),
    "retries": Model("xy", recorder("one", None), lambda l: l[0] == "waiting"),
    "counted": Model("xy", recorder("one", 4), lambda l: l[0] == "waiting"),
    "fischer-two": Model("xy", fischer(), lambda l: l[0] == l[1] == "critical"),
    "train-gate": Model("xyz", train_gate(), lambda l: l[0] == "in" and l[1] != "down"),
}

# --- Flattening ---------------------------------------------------------------

Sheet = namedtuple("Sheet", "clocks names accepting limits edges")
Edge = namedtuple("Edge", "label source target guard zeros")
RELATIONS = ["<", "<=", "=", ">=", ">"]


def atoms(text, clocks):
    """The atoms of a text such as "x<=2 y>1", as (clock, relation, constant)."""
    found = [re.fullmatch(r"(\w)(<=|>=|<|>|=)(\d+)", part).groups() for part in text.split()]
    return [(clocks.index(x) + 1, RELATIONS.index(relation), int(c)) for x, relation, c in found]


def moves(components, at):
    """The steps from one combination of locations: label, edges of the components that move, target."""
    labels = dict.fromkeys(edge[1] for component in components for edge in component.edges)
    for label in labels:
        choices = []
        for component, here in zip(components, at):
            if any(edge[1] == label for edge in component.edges):
                choices.append([e for e in component.edges if e[0] == here and e[1] == label])
            else:
                choices.append([None])
        for taken in itertools.product(*choices):
            target = tuple(here if e is None else e[2] for e, here in zip(taken, at))
            yield label, [e for e in taken if e is not None], target


def locations(component):
    """The locations of a component, in the order in which its edges name them."""
    return list(dict.fromkeys(end for edge in component.edges for end in (edge[0], edge[2])))


def flatten(model):
    """One automaton of the network, with the combinations of locations that its edges reach."""
    places = [locations(component) for component in model.components]
    found = [tuple(names[0] for names in places)]
    for at in found:
        found += dict.fromkeys(target for _, _, target in moves(model.components, at) if target not in found)
    found.sort(key=lambda at: [names.index(here) for names, here in zip(places, at)])
    limits = [
        [a for c, here in zip(model.components, at) for a in atoms(c.limits.get(here, ""), model.clocks)]
        for at in found
    ]
    edges = []
    for source, at in enumerate(found):
        for label, taken, target in moves(model.components, at):
            guard = [a for e in taken for a in atoms(e[3], model.clocks)]
            zeros = sorted({model.clocks.index(x) + 1 for e in taken for x in e[4].split()})
            edges.append(Edge(label, source, found.index(target), guard, zeros))
    names = [", ".join(map(str, at)) for at in found]
    return Sheet(len(model.clocks), names, [model.accepting(at) for at in found], limits, edges)
