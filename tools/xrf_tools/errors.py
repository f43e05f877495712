"""What goes wrong in a tool and is told in one line."""


class Fault(Exception):
    """A text for the user; the tool ends with its status."""

    status = 1


class OutputFault(Fault):
    """What is written could not be written to its end."""

    status = 20
