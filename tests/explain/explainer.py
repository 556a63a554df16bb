"""An explainer of its own, from documents 01 and 02 and docs/EXPLAIN.md alone: what `explain` prints of a file. By definitions
and by looking at everything; where the program keeps tables, this one searches.
"""

import sys
from pathlib import Path

sys.path.insert(0, str(Path(__file__).resolve().parent.parent))

import oracle

RULES = ["next", "sets", "leaves"]  # (a), (b), (c)


def wanted(study, number, variable):
    """The value that an action wants of a variable, or None."""
    return dict(study.actions[number].conditions).get(variable)


def over(study, rule, one, other):
    """The variable and value over which one action comes before another by a rule, or None if it does not."""
    a, b = study.actions[one], study.actions[other]
    if rule == "next":
        return (b.variable, b.pre) if (a.variable, a.post) == (b.variable, b.pre) else None
    if rule == "sets":
        return (a.variable, a.post) if wanted(study, other, a.variable) == a.post else None
    return (b.variable, b.pre) if wanted(study, one, b.variable) == b.pre else None


def orders_into(study, members, other):
    """Every direct order of members that ends in one of them: rule, earlier action, variable, value."""
    for rule in RULES:
        found = [(one, *place) for one in sorted(members) if (place := over(study, rule, one, other)) is not None]
        yield from ((rule, *order) for order in (sorted(found, key=lambda order: order[1]) if rule == "sets" else found))


def trace(study, variable):
    """Refusal 10: from the goal value back."""
    value, passed = study.goal(variable), []
    yield f"goal {variable} {value}"
    while value not in passed:
        passed.append(value)
        number = oracle.setter(study, variable, value)
        if number is None:
            yield f"unset {variable} {value}"
            return
        yield f"set {variable} {value} {number} {study.actions[number].pre}"
        value = study.actions[number].pre
    yield f"round {variable} {value}"


def walk_past(study, number, variable):
    """Refusal 11: the condition, and the walk that it is off."""
    yield f"wants {number} {variable} {wanted(study, number, variable)}"
    yield f"start {variable} {study.start(variable)}"
    for step in oracle.walk_of(study, variable):
        action = study.actions[step]
        yield f"walk {variable} {step} {action.pre} {action.post}"


def pairs_of(study):
    """All pairs of walk actions in which one comes before the other, and these actions."""
    walks = [oracle.walk_of(study, v) for v in range(len(study.counts))]
    return oracle.comes_before(study, walks), oracle.walk_actions(walks)


def stuck(study):
    """The walk actions on or after a ring."""
    after = oracle.closure(*pairs_of(study))
    return set(after) - oracle.free_of_rings(after)


def ring(study):
    """Refusal 12: from the lowest action on or after a ring, always to the lowest such that comes directly before."""
    pairs, _ = pairs_of(study)
    among = stuck(study)
    path = [min(among)]
    while True:
        first = min(one for one, other in pairs if other == path[-1] and one in among)
        if first in path:
            break
        path.append(first)
    circle = path[path.index(first) :]
    for other, one in zip(circle, circle[1:] + circle[:1]):
        rule = next(rule for rule in RULES if over(study, rule, one, other) is not None)
        yield "ring {} {} {} {} {}".format(rule, one, other, *over(study, rule, one, other))


def steps(study, plan):
    """A plan: each step, and the orders that end in it."""
    yield f"plan {len(plan)}"
    for number, step in enumerate(plan):
        action = study.actions[step]
        yield f"{number} {step} {action.variable} {action.pre} {action.post}"
        for rule, one, variable, value in orders_into(study, plan, step):
            yield f"after {rule} {plan.index(one)} {one} {variable} {value}"


def explained_to(file, crew):
    """The lines of one crew, or those of the refusal of a file that does not load."""
    numbers, buffer = oracle.plan_seeded(file, crew, bytes(oracle.MOST_ACTIONS))
    number, first, second = numbers
    if number == 0:
        return steps(oracle.heard(file, crew), list(buffer[:first]))
    told = {10: lambda s: trace(s, first), 11: lambda s: walk_past(s, first, second), 12: ring}
    return [f"refused {number} {first} {second}", *(told[number](oracle.heard(file, crew)) if number in told else [])]


def crews_in(file):
    """How many crews a file has; one is spoken of where it does not load."""
    try:
        return len(oracle.read(file).crews)
    except oracle.Refused:
        return 1


def explained(file):
    """The whole text: each crew in turn, where there is more than one with a line before it that says which."""
    file = file[: oracle.LONGEST_FILE + 1]
    crews = crews_in(file)
    lines = []
    for crew in range(crews):
        lines += [f"crew {crew}"] * (crews > 1) + list(explained_to(file, crew))
    return "".join(line + "\n" for line in lines)
