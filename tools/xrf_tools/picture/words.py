"""The words at an act in a picture."""

from xrf_tools.scene import Row, Step

# What an operator, an exit or the machine does, and not the region by itself.
OPERATOR = ("CEBT", "REPLY", "EXIT", "ABEND", "CONFIRM", "START")
# The most letters beside a lane, with the state that an act leads to.
MOST_LETTERS = 39
# As many letters as the marks of a round take, but for the last.
ROUND = 8


def cut(text: str, most: int) -> str:
    """The text, cut where it has more letters."""
    return text if len(text) <= most else text[: max(most - 1, 0)] + "…"


def words_of(row: Row) -> str:
    """The act's text, shortened where the picture shows the rest."""
    step = row.steps[-1]
    text, act = step.entry.text, step.entry.act
    if row.is_round:
        return "round " + text.removeprefix("DECIDE ")
    if act.verb == "ITEM":
        return f"{text} {step.item}"
    if act.verb == "CTLWRITE" and act.how == "made":
        return "CTLWRITE " + written(step)
    if act.verb == "RESTARTED":
        return " ".join([text, *settled(step)])
    return text


def letters_beside(row: Row) -> int:
    """How many letters are taken beside the words, by the state and by the marks of a round."""
    state = state_of(row.steps[-1])
    return (len(state) + 3 if state else 0) + (ROUND if row.is_round else 0)


def letters_of(row: Row) -> int:
    """How many letters a row takes beside its lane."""
    return min(len(words_of(row)) + letters_beside(row), MOST_LETTERS)


def written(step: Step) -> str:
    """What a control write is for."""
    words, kinds = step.entry.act.words, {event.kind for event in step.events}
    if "granted" in kinds:
        return f"alternate {words['alt']}" if "through" not in kinds else "owner " + words["owner"].rpartition(".")[0]
    if "through" in kinds:
        return "through " + words["owner"].rpartition(".")[0]
    if "taking" in kinds:
        return f"taking {words['taking']}"
    if not words["owner"].endswith(".RUNNING"):
        return f"sign-off {words['owner']}"
    return "no alternate"


def settled(step: Step) -> list[str]:
    """How the terminals of a new owner came over."""
    rows = [word.split(" ") for event in step.events if event.kind == "restarted" for word in event.words]
    return [f"{terminal} {how.lower()}" for terminal, how in rows]


def state_of(step: Step) -> str:
    """The state that a job comes to by this act."""
    text = step.changes.get(f"job {step.entry.site}", "")
    return "" if text in ("", "NONE") else text.split(" ")[1].lower()
