"""What can go wrong, one class for each cause, so that the command line can tell them apart.

Refused and Abort are the engine's own answers. Mistake is a text, a word or a file of the user's that cannot be taken; its status says
whether the command was used wrongly (2) or what was given does not do (1).
"""


class Refused(Exception):
    """The engine's refusal: a number and a place. mark: ? where it answers a question by number (owner, gate, output), ! where a text: the
    table of words has rows of their own for them.

    reasons are more words for a person, where somebody who knows the circuit or the text has added them."""

    reasons = ()

    def __init__(self, number, place, mark=""):
        super().__init__(f"refused {number} {place}")
        self.number, self.place, self.mark = number, place, mark

    @property
    def question(self):
        """Whether it answers a question by number."""
        return self.mark == "?"


class Mistake(Exception):
    """What a person gave cannot be taken; the lines say why."""

    def __init__(self, *lines, status=1):
        super().__init__("\n".join(lines))
        self.lines, self.status = lines, status


class Unavailable(Exception):
    """The proved library cannot be asked on this machine as it is; the text says what to do."""
