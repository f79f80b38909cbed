"""Coins and the chain of blocks."""
from collections import namedtuple

from trees import sha256, shortest

Spend = namedtuple('Spend', 'coin puzzle solution')             # puzzle and solution are trees
Bundle = namedtuple('Bundle', 'spends attested')                # attested: a list of (key, message)
Block = namedtuple('Block', 'previous height seconds reward_hash spends attested')
Peak = namedtuple('Peak', 'height hash seconds')
Record = namedtuple('Record', 'coin height seconds spent')


class Coin(namedtuple('Coin', 'parent puzzle_hash amount')):
    # The hash of parent, puzzle hash and the amount's shortest number.
    @property
    def id(self):
        return sha256(self.parent, self.puzzle_hash, shortest(self.amount))


class Chain:
    """The records of all coins by id, the peak, and what each connected block changed."""

    def __init__(self, genesis, seconds, coins, reward):
        self.genesis, self.reward = genesis, reward
        self.records = {it.id: Record(it, 0, seconds, None) for it in coins}
        self.peak = Peak(0, genesis, seconds)
        self.before = []

    # A block's coins are created with its height and seconds, its spent ones are marked, and a reward coin comes on
    # top, unless the reward is nothing or its id is there already.
    def connect(self, block, block_hash, spent, created):
        self.before.append((dict(self.records), self.peak))
        self.peak = Peak(block.height, block_hash, block.seconds)
        reward = Coin(block.previous, block.reward_hash, self.reward)
        for coin in created:
            self.records[coin.id] = Record(coin, block.height, block.seconds, None)
        for id in spent:
            self.records[id] = self.records[id]._replace(spent=block.height)
        if self.reward and reward.id not in self.records:
            self.records[reward.id] = Record(reward, block.height, block.seconds, None)

    # The chain without its last blocks.
    def roll_back(self, blocks):
        if blocks:
            self.records, self.peak = self.before[-blocks]
            del self.before[-blocks:]

    def unspent(self):
        return [it.coin for it in self.records.values() if it.spent is None]
