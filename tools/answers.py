"""The file of answers in a function's proof, answer by answer."""
from __future__ import annotations

import re
from typing import Callable

ANSWER = re.compile(r'^pub (\S+) :')


class Answers:
    """A file of answers: the answers by their names, and what stands before and between them."""

    def __init__(self, text: str) -> None:
        self.others: list[str] = []
        self.answers: dict[str, list[str]] = {}
        name = None
        for line in text.split('\n'):
            found = ANSWER.match(line)
            if found:
                name = found[1]
            elif line and line[0] not in ' })]' and not line.startswith(('unfolding', f'{name} ')):
                name = None
            lines = self.others if name is None else self.answers.setdefault(name, [])
            lines.append(line)

    def of_goals(self, has_answer: Callable[[str], bool]) -> str:
        """The file with the answers to those goals alone of which a function says so."""
        return '\n'.join([*self.others, *(line for goal, lines in self.answers.items()
                                          if has_answer(goal) for line in lines)])
