"""Predicates, their truth in rows, and two rules that skip rows by statistics.

A predicate is a tuple: ("compare", column, operator, constant), ("null", column), ("not", p), ("and", p, q) or ("or", p, q). Truth is
True, False or None, which is SQL's unknown."""
import operator

from .values import MISSING

COMPARE, NULL, NOT, AND, OR = "compare", "null", "not", "and", "or"
OPERATORS = {"=": operator.eq, "<>": operator.ne, "<": operator.lt, "<=": operator.le, ">": operator.gt, ">=": operator.ge}


def either(x, y):
    """Returns x OR y."""
    if x is True or y is True:
        return True
    return None if x is None or y is None else False


def both(x, y):
    """Returns x AND y."""
    if x is False or y is False:
        return False
    return None if x is None or y is None else True


def truth(predicate, cells, missing=None):
    """Returns the truth of a predicate in each row. `missing` is the truth of IS NULL where a row has no cell."""
    form = predicate[0]
    if form == COMPARE:
        compares, constant = OPERATORS[predicate[2]], predicate[3]
        return [None if cell is None or cell is MISSING else compares(cell, constant) for cell in cells[predicate[1]]]
    if form == NULL:
        return [missing if cell is MISSING else cell is None for cell in cells[predicate[1]]]
    if form == NOT:
        return [None if it is None else not it for it in truth(predicate[1], cells, missing)]
    sides = truth(predicate[1], cells, missing), truth(predicate[2], cells, missing)
    return list(map(both if form == AND else either, *sides))


def may_compare(stat, name, constant, wanted):
    """Returns whether a value between the least and the greatest may make a comparison true, or false if that is wanted. It is written
    by operator, as engines do it, and not by orders, as the definitions do."""
    if not stat.count:
        return False
    if not wanted:
        name = {"=": "<>", "<>": "=", "<": ">=", "<=": ">", ">": "<=", ">=": "<"}[name]
    low, high = stat.least, stat.greatest
    if name == "=":
        return (low is None or low <= constant) and (high is None or constant <= high)
    if name == "<>":
        return low is None or high is None or low != constant or high != constant
    if name in ("<", "<="):
        return low is None or OPERATORS[name](low, constant)
    return high is None or OPERATORS[name](high, constant)


def may_be(told, predicate, wanted=True):
    """Returns whether a row may make a predicate true, or false, as wanted, by the statistics of columns."""
    form = predicate[0]
    if form == NOT:
        return may_be(told, predicate[1], not wanted)
    if form in (AND, OR):
        gives = all if (form == AND) == wanted else any
        return gives(may_be(told, side, wanted) for side in predicate[1:])
    stat = told.get(predicate[1])
    if stat is None:
        return True
    if form == COMPARE:
        return may_compare(stat, predicate[2], predicate[3], wanted)
    return stat.nulls is not False if wanted else stat.count > 0


def boldly(stat):
    """Returns a statistic as the bold rule takes it: without a bound for one of nulls alone, and an unknown hasNull for false."""
    lacks = stat.bounded and (stat.least is None or stat.greatest is None)
    return type(stat)(0 if lacks else stat.count, bool(stat.nulls), stat.least, stat.greatest, stat.bounded)


def as_it_is(stat):
    """Returns a statistic as the cautious rule takes it."""
    return stat


RULES = {"cautious": as_it_is, "bold": boldly}
