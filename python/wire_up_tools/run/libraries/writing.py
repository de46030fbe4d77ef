"""What a library is known to reply, as lines and as JSON."""
from wire_up_tools.run.answers import dump, make_difference
from wire_up_tools.run.libraries.judging import Judged
from wire_up_tools.run.libraries.predicting import Predicted

# What stands in place of a rule where several do it together, and beside a reply that can depend on
# which rank is fast.
SEVERAL, UNSTEADY = "several-together", "unsteady"


def name_rules(predicted: Predicted) -> str:
    """The rules behind a call that is answered otherwise."""
    return ",".join(rule.label for rule in predicted.rules) or SEVERAL


def write_predicted(of: Judged, predicted: Predicted) -> str:
    """A call with the rules behind its reply, and whether that can depend on which rank is fast."""
    said = f"{predicted.difference} by {name_rules(predicted)}"
    return f"{said}, {UNSTEADY}" if predicted.difference.place in of.timed else said


def write_predictions(of: Judged) -> str:
    """The calls with their rules, what these say, and last how many calls there are."""
    lines = [write_predicted(of, predicted) for predicted in of.found]
    lines += [f"rule {rule.label}: {rule.value}" for rule in of.rules]
    known = f"{of.library.version} under {of.library.host}"
    lines.append(f"known of {known}; other versions may differ")
    lines.append(f"differing {len(of.found)} of {of.calls}")
    return "".join(f"{line}\n" for line in lines)


def write_predictions_json(of: Judged) -> str:
    """The same as JSON."""
    found: list[dict[str, object]] = [
        {
            **make_difference(predicted.difference),
            "by": [rule.label for rule in predicted.rules],
            UNSTEADY: predicted.difference.place in of.timed,
        }
        for predicted in of.found
    ]
    about = {"host": of.library.host, "library": of.library.name, "version": of.library.version}
    made: dict[str, object] = {**about, "calls": of.calls, "differs": found}
    return dump(made)
