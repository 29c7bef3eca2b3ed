"""The parts of scripts/make-package."""


class Refused(Exception):
    """What can't be packed, in words for who asked."""
