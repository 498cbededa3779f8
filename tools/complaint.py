"""The exception that the tools of this directory turn into a message and an exit status."""


class Complaint(Exception):
    """A message for the person who runs a tool, and the exit status that goes with it."""

    def __init__(self, status: int, message: str) -> None:
        super().__init__(message)
        self.status = status
