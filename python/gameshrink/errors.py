"""What is wrong with an input of the package itself. What the program refuses is `program.Refused`."""


class BadInput(Exception):
    """An input that the package cannot use, with the reason in one line.

    >>> Strategy.parse("{}")
    Traceback (most recent call last):
    gameshrink.errors.BadInput: the text is no strategy file; `gameshrink play --turns 0 --classes raw < GAME.toml` prints one
    """
