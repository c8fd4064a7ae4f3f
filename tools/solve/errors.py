"""The one exception that the tools show to their user: a message without a traceback, and status 2."""


class Failed(Exception):
    """Nothing can be said about the set; the message says why."""
