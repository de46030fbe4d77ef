"""Why a program ends without what was asked for, and the line that says so."""


class Refused(Exception):
    """What can't be done with what was given: the one line that says why."""


class Unusable(Exception):
    """A command line that can't be read: what is wrong with it."""


def explain(why: OSError) -> str:
    """What the system refused, with the file that it was about."""
    said = why.strerror or str(why)
    return f"{why.filename}: {said}" if why.filename else said
