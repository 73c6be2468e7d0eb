"""What the eraser says of a source that it does not know. Nothing is written then."""


class Refusal(Exception):
    """A place of a source, and why it is refused."""

    def __init__(self, path, line, why):
        super().__init__(f"{path}:{line}: {why}")
