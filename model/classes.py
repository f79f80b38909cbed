"""Classes of spends, the forward shape of singletons, and the fit of a bundle to what is taken."""
from chain import Spend
from conditions import SIGNED, BadCondition, Malformed, conditions_of, operand_of
from currying import uncurried
from evaluation import Failed
from judging import run_of
from operators import Spent, Wide
from trees import NIL, elements_of, is_atom, proper_list, sha256, shortest, spelled_size, tree_hash

PLAIN, SAME, FORWARD = 'plain', 'same', 'forward'
MOST_SOLUTION = 67_000_000
HELD_BACK = (43, 47, 48, 50, 70, 74, 75, 76)


def conditions_or_none(spend, limit):
    try:
        return conditions_of(run_of(spend, limit)[0])
    except (Failed, Spent, Wide, BadCondition):
        return None


def elements(tree, count):
    found, end = elements_of(tree)
    return found if end == NIL and len(found) == count else None


def is_hash(tree):
    return is_atom(tree) and len(tree) == 32


# The checks of the forward shape, one after the other: the puzzle is curried with two arguments (1); its program is the
# singleton's (2); the first argument is `(M . (L . Q))` with the singleton's hash and two hashes (3); the solution isn't
# too long and is a list of three: the proof, which is a list of two hashes and an amount, the coin's amount, and
# anything (4); the proof names the inner puzzle's hash (5); the coin's and its parent's amounts are odd (6); the coin's
# parent is the coin that the proof tells (7); the run is done and its conditions are good, exactly one created coin has
# an odd amount, and that one is as the coin (8); and no condition binds it to this one coin (9).
def broken_check(spend, limit, singleton):
    """The number of the first one that is broken, or None."""
    parts = uncurried(spend.puzzle)
    if parts is None or len(parts[1]) != 2:
        return 1
    if tree_hash(parts[0]) != singleton:
        return 2
    if not is_struct(parts[1][0], singleton):
        return 3
    proof, coin = proof_of(spend), spend.coin
    if proof is None:
        return 4
    if proof[1] != tree_hash(parts[1][1]):
        return 5
    if coin.amount % 2 == 0 or proof[3] % 2 == 0:
        return 6
    if coin.parent != sha256(proof[0], coin.puzzle_hash, proof[2]):
        return 7
    conditions = conditions_or_none(spend, limit)
    if conditions is None:
        return 8
    odd = [it.operands for it in conditions if it.code == 51 and it.operands[1] % 2]
    if odd != [(coin.puzzle_hash, coin.amount)]:
        return 8
    return 9 if any(it.code in HELD_BACK for it in conditions) else None


def is_struct(tree, singleton):
    if is_atom(tree) or not is_atom(tree[0]) or tree[0] != singleton:
        return False
    return not is_atom(tree[1]) and is_hash(tree[1][0]) and is_hash(tree[1][1])


def proof_of(spend):
    """Parent's parent, inner hash, and parent's amount as atom and number; or None."""
    parts = elements(spend.solution, 3) if spelled_size(spend.solution) <= MOST_SOLUTION else None
    proof = parts and elements(parts[0], 3)
    if not proof or not is_hash(proof[0]) or not is_hash(proof[1]):
        return None
    try:
        amount = operand_of('amount', proof[2])
    except Malformed:
        return None
    if not is_atom(parts[1]) or parts[1] != shortest(spend.coin.amount):
        return None
    return (*proof, amount)


def has_shape(spend, limit, singleton):
    return broken_check(spend, limit, singleton) is None


# A spend has the shape only where no other of the bundle has its puzzle hash (10). Where all have it, none is forward;
# a spend that isn't forward is the same where its run asks for no signature, else plain, which it also is where its run
# gives no conditions.
def classes_of(bundle, limit, singleton):
    hashes = [it.coin.puzzle_hash for it in bundle.spends]
    shaped = [hashes.count(it.coin.puzzle_hash) == 1 and has_shape(it, limit, singleton) for it in bundle.spends]
    if all(shaped):
        shaped = [False] * len(shaped)

    def other(spend):
        conditions = conditions_or_none(spend, limit)
        return PLAIN if conditions is None or any(it.code in SIGNED for it in conditions) else SAME
    return [FORWARD if it else other(spend) for it, spend in zip(shaped, bundle.spends)]


class Taken:
    """Spends that are taken already, as facts."""

    def __init__(self, facts=()):
        self.spends = [it.spend for it in facts]
        self.spent = {it.spend.coin.id for it in facts}
        self.created = {coin.id: coin for it in facts for coin in it.created}


def is_unspent(chain, taken, id):
    record = chain.records.get(id)
    return id not in taken.spent and (id in taken.created or record is not None and record.spent is None)


class BrokenLineage(Exception):
    """The number of the first check that is broken."""


# The one unspent coin of a puzzle hash and amount after chain and taken spends, with its parent; none where there is no
# such coin (1) or several (2), where its parent is nowhere (3), or has another puzzle hash (4).
def lineage_of(chain, taken, puzzle_hash, amount):
    """The coin and its parent; raises BrokenLineage."""
    found = {it.coin.id: it.coin for it in chain.records.values() if it.spent is None} | taken.created
    found = [it for id, it in found.items()
             if (it.puzzle_hash, it.amount) == (puzzle_hash, amount) and is_unspent(chain, taken, id)]
    if len(found) != 1:
        raise BrokenLineage(2 if found else 1)
    record = chain.records.get(found[0].parent)
    parent = record.coin if record else taken.created.get(found[0].parent)
    if parent is None:
        raise BrokenLineage(3)
    if parent.puzzle_hash != puzzle_hash:
        raise BrokenLineage(4)
    return found[0], parent


# The spend of the new coin: the parent's parent and amount in the proof, and the amount.
def rewritten(spend, coin, parent):
    proof, _, last = elements_of(spend.solution)[0]
    proof = proper_list([parent.parent, elements_of(proof)[0][1], shortest(parent.amount)])
    return Spend(coin, spend.puzzle, proper_list([proof, shortest(coin.amount), last]))


# Each forward spend whose coin isn't unspent is put onto its lineage; without one it stays as it is.
def fit_of(bundle, classes, chain, taken):
    fit = []
    for spend, kind in zip(bundle.spends, classes):
        if kind == FORWARD and not is_unspent(chain, taken, spend.coin.id):
            try:
                spend = rewritten(spend, *lineage_of(chain, taken, spend.coin.puzzle_hash, spend.coin.amount))
            except BrokenLineage:
                pass
        fit.append(spend)
    return fit
