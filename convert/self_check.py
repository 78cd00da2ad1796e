"""Compares the choices that a daemon marks with those that the converter's rules give."""


class SelfCheck:
    """Counts the prefixes whose routes were all ranked. If the daemon's choice isn't the first, some criterion isn't shown or
    is configured differently, and the next ranks may be wrong as well."""

    def __init__(self):
        # the prefixes, those with another choice of the daemon, and those whose reason may be the age of routes
        self.ranked = self.other = self.by_age = 0
        # what shows more criteria
        self.advice = ""

    def meet(self, agrees, by_age=False):
        """Takes up a prefix: whether the daemon's choice is the first and, if it isn't, whether age may be the reason."""
        self.ranked += 1
        if not agrees:
            self.other += 1
            self.by_age += by_age

    def counted(self):
        """The numbers, for `join`."""
        return self.ranked, self.other, self.by_age

    def join(self, counted, times=1):
        """Adds the numbers of a later part of the input, so many times."""
        ranked, other, by_age = counted
        self.ranked += times * ranked
        self.other += times * other
        self.by_age += times * by_age

    def differs(self):
        """Returns True if age can't be the reason for some prefix."""
        return self.other > self.by_age

    def lines(self):
        """The line that reports prefixes with another choice, if there are any."""
        if not self.other:
            return []
        age = f"; in {'all' if self.by_age == self.other else self.by_age} of these it may be the age of routes" if self.by_age else ""
        return [f"in {self.other} of {self.ranked} prefixes the daemon's choice isn't what these rules give: the next ranks may differ"
                f"{age}{self.advice}"]
