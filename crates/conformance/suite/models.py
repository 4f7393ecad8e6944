"""The model, apart from others, so that a part of it may be replaced."""
import functools

from . import made


@functools.lru_cache(maxsize=None)
def code():
    return compile(made.text_of(made.MODEL[0]), made.MODEL[0], "exec")


def model():
    """The names of a model of its own."""
    found = {"__name__": "apart"}
    exec(code(), found)
    return found
