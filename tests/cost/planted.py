"""Slips: models that are wrong in one thing, each with the group of lists that has to notice it."""
from model import Model

SLIPS = []


def slip(group):
    """A subclass of Pool or Model that is a slip: its docstring says what is wrong."""

    def planted(made):
        model = made if issubclass(made, Model) else type(made.__name__, (Model,), {'pool': made})
        SLIPS.append((group, made.__doc__, model()))
        return made

    return planted
