"""What a scenario's files say of it: its features, and whether it is refused."""
from . import trace


def features_of(scenario):
    """The features of a scenario by its files."""
    found = trace.features_of(scenario.text, scenario.records.split("\n"))
    if scenario.fails is not None:
        from . import calls
        found |= {"fails", "calls"} if calls.decide(scenario) else {"fails"}
    return sorted(found)


def is_refused(scenario):
    """Whether its trace or its board is refused."""
    return scenario.records.startswith("fault ") or "\nfault " in scenario.records
