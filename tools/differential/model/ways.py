"""How a listing is judged: by document 01, or in the points that are switched on as the Rust does."""


class TooLong(Exception):
    """The model gave up: the listing takes more steps than it is allowed."""


class Ways:
    def __init__(self, build="checked", steps=2_000_000):
        self.build, self.steps = build, steps
        self.switches, self.asked = set(), set()

    def on(self, *switches):
        self.switches.update(switches)

    def has(self, switch):
        """Asked only where the answer may depend on it."""
        if switch in self.switches:
            self.asked.add(switch)
            return True
        return False

    def step(self, n=1):
        self.steps -= n
        if self.steps < 0:
            raise TooLong()
