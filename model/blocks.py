"""Blocks and bundles as trees and bytes, and the plain replay of a block."""
from chain import Block, Coin, Spend
from conditions import Malformed, operand_of
from judging import Broken, judge
from trees import NIL, ONE, SpellingFault, elements_of, is_atom, proper_list, read_whole, shortest, spelling, tree_hash


# The list of spends is of `(parent puzzle amount solution)`; the generator is it under a quote.
def spends_tree(spends):
    return proper_list([proper_list([it.coin.parent, it.puzzle, shortest(it.coin.amount), it.solution]) for it in spends])


def attested_tree(attested):
    return proper_list(list(attested))


# A block is the list of previous hash, height, seconds, reward hash, generator and attested pairs.
def block_tree(block):
    generator = proper_list([ONE, spends_tree(block.spends)])
    return proper_list([block.previous, shortest(block.height), shortest(block.seconds), block.reward_hash, generator,
                        attested_tree(block.attested)])


def block_bytes(block):
    return spelling(block_tree(block))


def block_hash(block):
    return tree_hash(block_tree(block))


# The hash of the pair of both lists.
def bundle_id(bundle):
    return tree_hash((spends_tree(bundle.spends), attested_tree(bundle.attested)))


def list_of(tree, count=None):
    elements, end = elements_of(tree)
    if end != NIL or count not in (None, len(elements)):
        raise Malformed
    return elements


def number_below(tree, most):
    value = operand_of('moment', tree)
    if not 0 <= value < most:
        raise Malformed
    return value


# The puzzle hash isn't in the tree: a spend's coin has its puzzle's.
def spend_of(tree):
    parent, puzzle, amount, solution = list_of(tree, 4)
    return Spend(Coin(operand_of('hash', parent), tree_hash(puzzle), operand_of('amount', amount)), puzzle, solution)


def signed_of(tree):
    if is_atom(tree) or not is_atom(tree[1]):
        raise Malformed
    return operand_of('key', tree[0]), tree[1]


# Rule 40: the bytes are a block's spelling; else the place is that of the spelling's fault, their number where they are
# cut, or 0.
def block_of(spelled):
    try:
        tree = read_whole(spelled)
    except SpellingFault as fault:
        raise Broken(40, len(spelled) if fault.place is None else fault.place) from None
    try:
        previous, height, seconds, reward_hash, generator, attested = list_of(tree, 6)
        quote, spends = list_of(generator, 2)
        if not is_atom(quote) or quote != ONE:
            raise Malformed
        return Block(operand_of('hash', previous), number_below(height, 2 ** 32), number_below(seconds, 2 ** 64),
                     operand_of('hash', reward_hash), [spend_of(it) for it in list_of(spends)],
                     [signed_of(it) for it in list_of(attested)])
    except Malformed:
        raise Broken(40, 0) from None


# A block follows the peak (41), is later than it (42), and its spends are fine.
def accepted(chain, spelled, limit):
    """The block, its cost, fee and facts; raises Broken."""
    block = block_of(spelled)
    if block.previous != chain.peak.hash or block.height != chain.peak.height + 1:
        raise Broken(41, 0)
    if block.seconds <= chain.peak.seconds:
        raise Broken(42, 0)
    return block, *judge(chain, block.spends, block.attested, limit)


def connect(chain, block, facts):
    chain.connect(block, block_hash(block), [it.spend.coin.id for it in facts], [coin for it in facts for coin in it.created])
