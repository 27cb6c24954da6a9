"""What ends a run: something differs."""


class Differs(Exception):
    """What the programs answered, or kept, and what they had to."""
