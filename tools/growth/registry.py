"""The register of shapes, which the files of shapes fill."""

UNLIMITED = 10_000_000


class Shape:
    """A function that makes modules, and what is known of them.

    `valid`: a validator accepts a small module. Other shapes exceed a limit of validators or are invalid; they are printed nevertheless. `None`: a
    validator would count to 2^32 for each operator, so none is asked.
    `folds`: they can be folded. `most`: the greatest number of items.
    """

    def __init__(self, make, valid, folds, most):
        self.make, self.valid, self.folds, self.most = make, valid, folds, most
        self.name, self.summary = make.__name__.replace("_", "-"), make.__doc__.splitlines()[0]


class Shapes(dict):
    """Shapes by name."""

    def shape(self, valid=True, folds=True, most=UNLIMITED):
        """Returns a decorator that adds a function, under its name with hyphens."""

        def added(make):
            made = Shape(make, valid, folds, most)
            self[made.name] = made
            return make

        return added
