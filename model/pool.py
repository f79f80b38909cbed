"""The pool of one thread: admission with replacement, what a change of the peak leaves, and assembly."""
from collections import namedtuple
from functools import cmp_to_key

from blocks import accepted, bundle_id, connect
from chain import Block
from classes import FORWARD, SAME, Taken, classes_of, fit_of
from judging import Broken, judge
from trees import same

MOST_HEIGHT = 2 ** 32 - 1
LEAST_RISE = 10_000_000    # of the fee, where a bundle replaces others

Item = namedtuple('Item', 'bundle id classes fit fee cost')
Limits = namedtuple('Limits', 'max_cost pool_cost singleton')


def equal_spends(one, other):
    return one.coin == other.coin and same(one.puzzle, other.puzzle) and same(one.solution, other.solution)


# Two bundles conflict where both spend a coin and the two spends aren't both forward, nor both the same with equal
# codes.
def conflict(one, other):
    spends = {it.coin.id: (it, kind) for it, kind in zip(other.fit, other.classes)}
    for spend, kind in zip(one.fit, one.classes):
        if spend.coin.id in spends:
            second, its_kind = spends[spend.coin.id]
            alike = same(spend.puzzle, second.puzzle) and same(spend.solution, second.solution)
            if not (kind == its_kind == FORWARD or kind == its_kind == SAME and alike):
                return True
    return False


class Pool:
    """A chain, the limits, and the bundles in the order of their admission."""

    def __init__(self, chain, limits):
        self.chain, self.limits, self.items = chain, limits, []

    # A bundle with its classes, and the fee and cost of its fit with nothing taken.
    def item_of(self, bundle, id):
        classes = classes_of(bundle, self.limits.max_cost, self.limits.singleton)
        fit = fit_of(bundle, classes, self.chain, Taken())
        cost, fee, _ = judge(self.chain, fit, bundle.attested, self.limits.max_cost)
        return Item(bundle, id, classes, fit, fee, cost)

    # A bundle that is there already (30) or has no spend (1) is refused, and one whose fit isn't fine. Of those that it
    # conflicts with it spends all coins (31), its fee per cost is higher than theirs together (32), and its fee by
    # 10,000,000 (33); and without them the pool has room for it (34). It replaces them and goes last.
    def admit(self, bundle):
        """The item and the ids that it replaced; raises Broken."""
        id = bundle_id(bundle)
        for place, it in enumerate(self.items):
            if it.id == id:
                raise Broken(30, place)
        if not bundle.spends:
            raise Broken(1, 0)
        new = self.item_of(bundle, id)
        against = [place for place, it in enumerate(self.items) if conflict(new, it)]
        own = {it.coin.id for it in new.fit}
        for place in against:
            if any(it.coin.id not in own for it in self.items[place].fit):
                raise Broken(31, place)
        fee, cost = (sum(getattr(self.items[it], what) for it in against) for what in ('fee', 'cost'))
        if against and new.fee * cost <= fee * new.cost:
            raise Broken(32, against[0])
        if against and new.fee < fee + LEAST_RISE:
            raise Broken(33, against[0])
        kept = [it for place, it in enumerate(self.items) if place not in against]
        if sum(it.cost for it in kept) + new.cost > self.limits.pool_cost:
            raise Broken(34, 0)
        replaced = [self.items[it].id for it in against]
        self.items = kept + [new]
        return new, replaced

    # The bundles stay, in order, whose fit with nothing taken is fine on the new chain.
    def after_peak(self):
        items, self.items = self.items, []
        for it in items:
            try:
                self.items.append(self.item_of(it.bundle, it.id))
            except Broken:
                pass

    def connect(self, spelled):
        block, _, _, facts = accepted(self.chain, spelled, self.limits.max_cost)
        connect(self.chain, block, facts)
        self.after_peak()

    # More blocks can't be asked back than there are (43).
    def roll_back(self, blocks):
        if blocks > len(self.chain.before):
            raise Broken(43, 0)
        self.chain.roll_back(blocks)
        self.after_peak()

    # By fee per cost, the larger first, and of equal ones the earlier. A bundle is taken exactly where all taken spends
    # and then its fit with these taken, less its same spends that equal a taken one, are fine with the attested pairs
    # of all.
    def assemble(self, seconds, reward_hash):
        """The block, its fee, its cost and its facts; raises Broken."""
        peak = self.chain.peak
        if peak.height == MOST_HEIGHT:
            raise Broken(41, 0)
        if seconds <= peak.seconds:
            raise Broken(42, 0)
        order = sorted(self.items, key=cmp_to_key(lambda one, other: other.fee * one.cost - one.fee * other.cost))
        spends, attested = [], []
        cost, fee, facts = judge(self.chain, [], [], self.limits.max_cost)
        for item in order:
            taken = Taken(facts)
            fit = fit_of(item.bundle, item.classes, self.chain, taken)
            by_coin = {it.coin.id: it for it in taken.spends}
            fit = [it for it, kind in zip(fit, item.classes)
                   if not (kind == SAME and it.coin.id in by_coin and equal_spends(it, by_coin[it.coin.id]))]
            pairs = attested + [it for it in dict.fromkeys(item.bundle.attested) if it not in attested]
            try:
                cost, fee, facts = judge(self.chain, spends + fit, pairs, self.limits.max_cost)
            except Broken:
                continue
            spends, attested = spends + fit, pairs
        return Block(peak.hash, peak.height + 1, seconds, reward_hash, spends, attested), fee, cost, facts

    def farm(self, seconds, reward_hash):
        block, fee, cost, facts = self.assemble(seconds, reward_hash)
        connect(self.chain, block, facts)
        self.after_peak()
        return block, fee, cost
