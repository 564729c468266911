"""Words for a number and a place, from include/words.txt, the one table of them."""

from .errors import Unavailable
from .places import WORDS

_table = {}


def table():
    """(number and its mark, place) to words; the place is * where the words hold for any other."""
    if not _table:
        try:
            with open(WORDS, encoding="utf-8") as file:
                lines = file.read().splitlines()
        except OSError as error:
            raise Unavailable(f"include/words.txt, the table of words, cannot be read: {error.strerror}") from None
        for line in lines:
            if line and not line.startswith("#"):
                number, place, words = line.split("\t")
                _table[number, place] = words
    return _table


def of(number, place, mark=""):
    """What a number and a place mean; None where the table has nothing for them. A mark (errors.py) has rows of its own for some numbers."""
    rows = [(row, at) for row in (f"{number}{mark}", str(number)) for at in (str(place), "*")]
    words = next((table()[row] for row in rows if row in table()), None)
    return words and words.replace("{place}", str(place))


def told(refused):
    """A refusal in one line, the bare numbers first."""
    words = of(refused.number, refused.place, refused.mark)
    return f"refused {refused.number} {refused.place}: {words or 'a number and place that the table of words does not have'}"
