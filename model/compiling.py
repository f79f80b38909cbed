"""Whether what `compile` wrote is right: the first fault, or a code that keeps the bound and agrees with the module."""
from evaluation import Failed, Fuel, run
from meaning import NoValue, Out, mean
from modules import UNLIMITED, ModuleFault, module
from operators import Spent, Wide
from trees import same, spelled_size, spelling

MOST_BOUND = 33_554_432
CALLS, SOURCE_COST, CODE_COST = 3_000, 1_000_000, 100_000_000      # within which an outcome is looked for


# The line that is written in place of a code.
def fault_line(text, library):
    """Status and line, or None and the module that is to be compiled."""
    try:
        found = module(text, library)
    except ModuleFault as fault:
        return 1, 'module %s %d %d' % (fault.kind, *fault.place), None
    return 0, 'too-long' if found.bound > MOST_BOUND else None, found


def source_outcome(found, environment):
    """`value TREE`, `wide`, `none`, or None where that isn't told."""
    try:
        return mean(found, environment, CALLS, SOURCE_COST)
    except NoValue:
        return 'none'
    except Wide:
        return 'wide'
    except Out:
        return None


def code_outcome(code, environment):
    try:
        return run(code, environment, Fuel(CODE_COST, UNLIMITED, UNLIMITED, UNLIMITED))[0]
    except Failed:
        return 'none'
    except Wide:
        return 'wide'
    except Spent:
        return None


def alike(one, other):
    if type(one) is str or type(other) is str:
        return type(one) is type(other) and one == other
    return same(one, other)


# A code agrees with its module where on each environment it has the same value, is wide, or has none, as the source
# does.
def disagreement(found, code, environments):
    """None, or why this code isn't right."""
    if spelled_size(code) > found.bound:
        return 'the code has %d bytes, and the bound is %d' % (spelled_size(code), found.bound)
    for environment in environments:
        wanted, got = source_outcome(found, environment), code_outcome(code, environment)
        if wanted is not None and got is not None and not alike(wanted, got):
            told = [it if type(it) is str else spelling(it).hex() for it in (environment, got, wanted)]
            return 'on %s the code gives %s, and the source %s' % tuple(told)
    return None
