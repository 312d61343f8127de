"""A query as people write it, as an expression of SQLite's FTS5 that can't be refused, with limits to what it costs."""

from __future__ import annotations

import dataclasses
import datetime
import re
from collections.abc import Iterator

from . import scripts

LONGEST = 200      # characters
MOST_TERMS = 12    # words and phrases
MOST_ORS = 5
MOST_PREFIXES = 2  # words with a * at their end
LEAST_PREFIX = 2   # letters before it
TOKEN = re.compile(r'([()])|(-)?(?:(author|subject|after|before):)?("[^"]*"?|[^\s"()]+)', re.IGNORECASE)
DATE = re.compile(r'(\d{4})(?:-(\d\d?)(?:-(\d\d?))?)?')
LETTERS = re.compile(r'[^\W_]+')
OPERATORS = 'AND', 'OR', 'NOT'


class Wrong(Exception):
    """Why there is no answer to a query, in words for whoever asked."""


class Unparsed(Exception):
    """Operators that make no sense where they stand: they are taken as words."""


@dataclasses.dataclass(frozen=True)
class Term:
    """A word or a phrase, and where it is looked for."""
    text: str
    field: str = ''           # author, subject, or everywhere
    is_prefix: bool = False
    is_out: bool = False      # it mustn't be there

    @property
    def letters(self) -> str:
        return ''.join(LETTERS.findall(self.text))

    @property
    def expression(self) -> str:
        text, is_beginning = scripts.asked(self.text)
        return f'{f"{self.field} : " if self.field else ""}"{text}"{" *" if self.is_prefix or is_beginning else ""}'


@dataclasses.dataclass(frozen=True)
class Query:
    """What is asked: an expression of FTS5, '' without words; the terms that have to be there; and the moments from and before which."""
    expression: str = ''
    terms: tuple[Term, ...] = ()
    after: int | None = None
    before: int | None = None

    @property
    def is_empty(self) -> bool:
        return not self.expression and self.after is None and self.before is None


def read(text: str, zone: datetime.tzinfo) -> Query:
    """Reads a query. One that is too long or costs too much, or has a date that is none, is Wrong."""
    if len(text) > LONGEST:
        raise Wrong(f'A query has at most {LONGEST} characters.')
    dates: dict[str, int] = {}
    tokens = list(tokens_of(text, zone, dates))
    terms = [token for token in tokens if isinstance(token, Term)]
    check(terms, tokens.count('OR'))
    try:
        expression = Parser(tokens).whole()
    except Unparsed:
        terms += [Term(str(token)) for token in tokens if token in OPERATORS]
        check(terms, 0)
        expression = joined('AND', [term.expression for term in terms if not term.is_out])
    if terms and not expression:
        raise Wrong('Say also what a post has to have, and not only what it mustn\'t.')
    return Query(expression, tuple(term for term in terms if not term.is_out), dates.get('after'), dates.get('before'))


def tokens_of(text: str, zone: datetime.tzinfo, dates: dict[str, int]) -> Iterator[Term | str]:
    """The terms, operators and parentheses of a text. Dates go into `dates`, and what has no letter is left out."""
    for match in TOKEN.finditer(text):
        bracket, minus, field, word = match[1], match[2], (match[3] or '').lower(), match[4] or ''
        if bracket or word in OPERATORS and not minus and not field:
            yield bracket or word
        elif field in ('after', 'before'):
            dates[field] = moment_of(word.strip('"'), zone)
        else:
            is_prefix = word.endswith('*') and not word.startswith('"')
            term = Term(word.strip('"').rstrip('*' if is_prefix else '').replace('"', ' '), field, is_prefix, bool(minus))
            if term.letters:
                yield term


def check(terms: list[Term], ors: int) -> None:
    """Refuses what would cost too much."""
    prefixes = [term for term in terms if term.is_prefix]
    if len(terms) > MOST_TERMS:
        raise Wrong(f'A query has at most {MOST_TERMS} words and phrases.')
    if ors > MOST_ORS:
        raise Wrong(f'A query has OR at most {MOST_ORS} times.')
    if len(prefixes) > MOST_PREFIXES:
        raise Wrong(f'A query has a * at most {MOST_PREFIXES} times.')
    if any(len(term.letters) < LEAST_PREFIX for term in prefixes):
        raise Wrong(f'A word has at least {LEAST_PREFIX} letters before its *.')


def joined(operator: str, expressions: list[str]) -> str:
    return expressions[0] if len(expressions) == 1 else f'({f" {operator} ".join(expressions)})' if expressions else ''


class Parser:
    """Reads tokens: OR binds less than what stands together, and NOT and a minus take out."""

    def __init__(self, tokens: list[Term | str]) -> None:
        self.tokens = tokens
        self.at = 0

    @property
    def next(self) -> Term | str | None:
        return self.tokens[self.at] if self.at < len(self.tokens) else None

    def whole(self) -> str:
        found = self.either() if self.tokens else ''
        if self.next is not None:
            raise Unparsed
        return found

    def either(self) -> str:
        found = [self.together()]
        while self.next == 'OR':
            self.at += 1
            found.append(self.together())
        if len(found) > 1 and not all(found):
            raise Unparsed
        return joined('OR', found)

    def together(self) -> str:
        """What stands together up to an OR or a parenthesis."""
        wanted: list[str] = []
        unwanted: list[str] = []
        is_first = True
        while isinstance(self.next, Term) or self.next in ('(', 'AND', 'NOT'):
            word = self.next
            if word in ('AND', 'NOT'):
                if is_first and word == 'AND':
                    raise Unparsed
                self.at += 1
            expression, is_out = self.one()
            (unwanted if is_out or word == 'NOT' else wanted).append(expression)
            is_first = False
        if is_first:
            raise Unparsed
        found = joined('AND', [each for each in wanted if each])
        return f'({found} NOT {joined("OR", unwanted)})' if found and unwanted else found

    def one(self) -> tuple[str, bool]:
        """A term, or what stands in parentheses, and whether it is to be taken out."""
        token = self.next
        self.at += 1
        if isinstance(token, Term):
            return token.expression, token.is_out
        if token != '(':
            raise Unparsed
        found = self.either()
        if self.next != ')' or not found:
            raise Unparsed
        self.at += 1
        return found, False


def moment_of(text: str, zone: datetime.tzinfo) -> int:
    """The moment at which a date (YYYY, YYYY-MM or YYYY-MM-DD) begins in a time zone."""
    match = DATE.fullmatch(text)
    try:
        if match:
            return int(datetime.datetime(int(match[1]), int(match[2] or 1), int(match[3] or 1), tzinfo=zone).timestamp())
    except (ValueError, OverflowError):
        pass
    raise Wrong(f'{text} is no date: write it as 2026-11-30, 2026-11 or 2026.')
