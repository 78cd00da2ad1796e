"""The lock's tree, from docs/LOCK.md: what `yarib replay` prints for a schedule."""


class Tree:
    """All places of a tree with this number of levels. Each does one atomic step at a time, by the rows of
    docs/LOCK.md."""

    def __init__(self, levels):
        self.levels, self.words, self.inside = levels, {}, None
        self.places = [self.passages(place) for place in range(2**levels)]

    def store(self, word, value):
        self.words[word] = value
        return f"{word} := {value}"

    def load(self, word):
        value = self.words.get(word, 0)
        return value, f"{word} = {value}"

    def passages(self, place):
        while True:
            for level in range(1, self.levels + 1):
                last = yield from self.enter(level, place)
                yield last + (" inside" if level == self.levels else "")
            for level in range(self.levels, 0, -1):
                last = yield from self.leave(level, place)
                yield last + (" out" if level == 1 else "")

    def enter(self, level, place):
        """Yields the steps but for the last one, and returns that."""
        node, side, own = place >> level, place >> level - 1 & 1, place + 1
        last, spin = f"T{level}.{node}", f"P{level}.{place}"
        yield self.store(f"C{level}.{node}.{side}", own)
        yield self.store(last, own)
        yield self.store(spin, 0)
        rival, text = self.load(f"C{level}.{node}.{1 - side}")
        if rival == 0:
            return text
        yield text
        announced, text = self.load(last)
        if announced != own:
            return text
        yield text
        waits, text = self.load(f"P{level}.{rival - 1}")
        yield text
        if waits == 0:
            yield self.store(f"P{level}.{rival - 1}", 1)
        waits = 0
        while waits == 0:
            waits, text = self.load(spin)
            yield text
        announced, text = self.load(last)
        if announced != own:
            return text
        yield text
        while True:
            waits, text = self.load(spin)
            if waits == 2:
                return text
            yield text

    def leave(self, level, place):
        node, side, own = place >> level, place >> level - 1 & 1, place + 1
        yield self.store(f"C{level}.{node}.{side}", 0)
        announced, text = self.load(f"T{level}.{node}")
        if announced == own:
            return text
        yield text
        return self.store(f"P{level}.{announced - 1}", 2)

    def text(self, picks):
        lines = []
        for number, place in enumerate(picks, 1):
            step = next(self.places[place])
            lines.append(f"{number} p{place} {step}\n")
            if step.endswith(" inside"):
                self.inside = place
            elif self.inside == place:
                self.inside = None
        return "".join(lines) + f"inside {'none' if self.inside is None else f'p{self.inside}'}\n"
