"""Why the program ends."""

# Exit statuses, as those of `mrep`: what stays until somebody acts, mistakes in the words, what may pass by itself.
ACT, USAGE, RETRY = 1, 2, 3
# How much of a text is printed.
SHOWN = 512


class Fault(SystemExit):
    """What ended the program, in words, with the exit status. Where nothing catches it, Python prints the words, and the status
    is 1."""

    def __init__(self, text: str, status: int = ACT) -> None:
        super().__init__(text)
        self.status = status


def shown(value: object) -> str:
    """A value of a row in a message: in ASCII, without control characters, and not longer than a line or two."""
    text = ascii(value)
    return text if len(text) <= SHOWN else text[:SHOWN] + '...'
