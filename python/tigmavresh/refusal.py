"""The refusal: what is raised where the library refuses."""

from __future__ import annotations

from ._rules import RULES, Rule


class Refused(Exception):
    """The library refused. It has shown nothing and changed nothing.

    number: The number of the rule that is broken, as `Rule` has them: the first that applies, in the order of the call.
    """

    def __init__(self, number: int) -> None:
        super().__init__(number)
        self.number = number

    @property
    def rule(self) -> str:
        """What the rule asks, in a few words."""
        return RULES[Rule(self.number)]

    def __str__(self) -> str:
        return f"refused, number {self.number}; rule broken: {self.rule}"


def check(number: int) -> None:
    """Raises what an answer's refusal says: nothing for 0."""
    if number:
        raise Refused(number)
