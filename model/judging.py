"""The judgement on a list of spends: its cost and fee, or the first rule that it breaks."""
from collections import Counter, namedtuple

from chain import Coin
from conditions import SIGNED, BadCondition, condition_cost, conditions_of, part_kinds
from evaluation import FULL, Failed, run
from operators import Spent, Wide
from trees import sha256, shortest, spelled_size, tree_hash

BYTE_COST = 12_000
EMPTY_GENERATOR, SPEND_BYTES = 5, 39       # of a list without spends; of each spend besides its puzzle, amount and solution

Facts = namedtuple('Facts', 'spend conditions created run_cost bytes')


class Broken(Exception):
    """A rule is broken at a place."""

    def __init__(self, rule, place):
        super().__init__(rule, place)
        self.rule, self.place = rule, place


class BrokenSpend(Exception):
    """A rule of one spend is broken; of the rules 7 to 10 the place of the condition is told, too."""

    def __init__(self, rule, place=None):
        super().__init__(rule, place)
        self.rule, self.place = rule, place


RUNS = {}


# The value of a spend's puzzle on its solution within a limit of cost. (Runs are kept by their trees' identities.)
def run_of(spend, limit):
    key = id(spend.puzzle), id(spend.solution), limit
    if key not in RUNS:
        try:
            outcome = run(spend.puzzle, spend.solution, FULL._replace(cost=limit))
        except (Failed, Spent, Wide) as fault:
            outcome = fault
        RUNS[key] = spend, outcome
    outcome = RUNS[key][1]
    if isinstance(outcome, Exception):
        raise outcome
    return outcome


# Rules 3 to 10 of one spend: its puzzle's hash is the coin's (3); its run doesn't fail (4), has enough cost (5) and
# isn't wide (6); no condition is malformed (7) or unknown (8); its created coins differ (9); what it says of its own
# coin is so (10). Of two equal created coins the second is told.
def facts_of(spend, limit):
    if tree_hash(spend.puzzle) != spend.coin.puzzle_hash:
        raise BrokenSpend(3)
    try:
        value, cost = run_of(spend, limit)
        conditions = conditions_of(value)
    except Failed:
        raise BrokenSpend(4) from None
    except Spent:
        raise BrokenSpend(5) from None
    except Wide:
        raise BrokenSpend(6) from None
    except BadCondition as bad:
        raise BrokenSpend(8 if bad.is_unknown else 7, bad.place) from None
    outputs = {}
    for place, it in enumerate(conditions):
        if it.code == 51 and outputs.setdefault(it.operands, place) != place:
            raise BrokenSpend(9, place)
    own = {70: spend.coin.id, 71: spend.coin.parent, 72: spend.coin.puzzle_hash, 73: spend.coin.amount}
    for place, it in enumerate(conditions):
        if it.code in own and it.operands[0] != own[it.code]:
            raise BrokenSpend(10, place)
    created = [Coin(spend.coin.id, *it) for it in outputs]
    size = SPEND_BYTES + spelled_size(spend.puzzle) + spelled_size(shortest(spend.coin.amount)) + spelled_size(spend.solution)
    return Facts(spend, conditions, created, cost + sum(map(condition_cost, conditions)), size)


# A lock on time compares the peak with a number, for the relative ones counted from the coin's record: 80 and 84
# seconds since the coin, 81 and 85 seconds, 82 and 86 height since the coin, 83 and 87 height; 84 to 87 hold where 80
# to 83 don't.
def reaches(code, moment, peak, record):
    kind = (code - 80) % 4
    now = peak.seconds if kind < 2 else peak.height
    since = 0 if kind % 2 else record.seconds if kind == 0 else record.height
    return now >= since + moment


RELATIVE = (80, 82, 84, 86)


# The message that a condition asks to be signed: its text, and but for 49 the coin's facts and the genesis data.
def signed_message(condition, coin, genesis):
    text, code = condition.operands[1], condition.code
    if code == 49:
        return text
    if code == 50:
        return text + coin.id + genesis
    facts = {43: (coin.parent,), 44: (coin.puzzle_hash,), 45: (shortest(coin.amount),),
             46: (coin.puzzle_hash, shortest(coin.amount)), 47: (coin.parent, shortest(coin.amount)),
             48: (coin.parent, coin.puzzle_hash)}[code]
    return text + b''.join(facts) + sha256(genesis, bytes([code]))


# A message is its mode, its text, the sender's parts and the receiver's; the own side's are taken from the own coin.
def message_of(condition, coin):
    mode, text, others = condition.operands
    own_bits = mode >> 3 if condition.code == 66 else mode & 7
    own = tuple(getattr(coin, it) for it in part_kinds(own_bits))
    return (mode, text, own, others) if condition.code == 66 else (mode, text, others, own)


class List:
    """A list of spends with their facts, over a chain."""

    def __init__(self, chain, facts, attested):
        self.chain, self.facts, self.attested = chain, facts, set(attested)
        self.created = {coin.id for it in facts for coin in it.created}
        self.spent_ids = {it.spend.coin.id for it in facts}
        self.spent_hashes = {it.spend.coin.puzzle_hash for it in facts}
        self.announced = {60: set(), 62: set()}
        self.balance = Counter()
        for it in facts:
            for condition in it.conditions:
                if condition.code in (60, 62):
                    coin = it.spend.coin
                    by = coin.id if condition.code == 60 else coin.puzzle_hash
                    self.announced[condition.code].add(sha256(by, condition.operands[0]))
                if condition.code in (66, 67):
                    self.balance[message_of(condition, it.spend.coin)] += 1 if condition.code == 66 else -1

    # 11: the coin is neither in the chain nor created by the list.
    def breaks_11(self, facts):
        return facts.spend.coin.id not in self.chain.records and facts.spend.coin.id not in self.created

    # 12: the coin is spent in the chain.
    def breaks_12(self, facts):
        record = self.chain.records.get(facts.spend.coin.id)
        return record is not None and record.spent is not None

    # 13: its birth isn't that of the record; or the coin is created by the list and its birth or a relative lock is
    # asked for.
    def breaks_13(self, facts):
        id = facts.spend.coin.id
        for it in facts.conditions:
            if it.code in (74, 75, *RELATIVE):
                if id in self.created:
                    return True
                record = self.chain.records[id]
                if it.code in (74, 75) and it.operands[0] != (record.seconds if it.code == 74 else record.height):
                    return True
        return False

    def lock_breaks(self, facts, codes, wanted):
        record = self.chain.records.get(facts.spend.coin.id)
        return any(it.code in codes and reaches(it.code, it.operands[0], self.chain.peak, record) != wanted
                   for it in facts.conditions)

    # 14: one of the locks that begin doesn't hold. 15: one of those that end.
    def breaks_14(self, facts):
        return self.lock_breaks(facts, range(80, 84), True)

    def breaks_15(self, facts):
        return self.lock_breaks(facts, range(84, 88), False)

    # 16: an announcement is asserted that no spend of the list makes.
    def breaks_16(self, facts):
        return any(it.code in (61, 63) and it.operands[0] not in self.announced[it.code - 1] for it in facts.conditions)

    # 17: another spend, or spent puzzle, is named that isn't in the list.
    def breaks_17(self, facts):
        return any(it.code == 64 and it.operands[0] not in self.spent_ids or
                   it.code == 65 and it.operands[0] not in self.spent_hashes for it in facts.conditions)

    # 18: a coin is said to be created by the list, and isn't.
    def breaks_18(self, facts):
        return any(it.code == 76 for it in facts.conditions) and facts.spend.coin.id not in self.created

    # 19: one of its messages is sent and received in unequal numbers.
    def breaks_19(self, facts):
        return any(it.code in (66, 67) and self.balance[message_of(it, facts.spend.coin)] for it in facts.conditions)

    # 22: a pair that is to be signed isn't attested.
    def breaks_22(self, facts):
        return any(it.code in SIGNED and
                   (it.operands[0], signed_message(it, facts.spend.coin, self.chain.genesis)) not in self.attested
                   for it in facts.conditions)

    # 23: a created coin is in the chain already, or was created earlier in the list.
    def check_23(self):
        seen = set()
        for place, it in enumerate(self.facts):
            for coin in it.created:
                if coin.id in self.chain.records or coin.id in seen:
                    raise Broken(23, place)
                seen.add(coin.id)

    # The rules from 11 on, one after the other over all spends. 20 and 21 compare what is created, and with it what is
    # reserved, with what is spent.
    def check(self):
        def over_all(*rules):
            for rule in rules:
                breaks = getattr(self, 'breaks_%d' % rule)
                for place, it in enumerate(self.facts):
                    if breaks(it):
                        raise Broken(rule, place)
        over_all(11, 12, 13, 14, 15, 16, 17, 18, 19)
        spent = sum(it.spend.coin.amount for it in self.facts)
        created = sum(coin.amount for it in self.facts for coin in it.created)
        reserved = sum(cond.operands[0] for it in self.facts for cond in it.conditions if cond.code == 52)
        if created > spent:
            raise Broken(20, len(self.facts))
        if created + reserved > spent:
            raise Broken(21, len(self.facts))
        over_all(22)
        self.check_23()
        return spent - created


# A coin is spent once (2); then each spend by itself, and after it the cost so far (5); then the rules from 11 on. The
# cost is 12,000 for each byte of the generator, and the runs' and the conditions' costs.
def judge(chain, spends, attested, limit):
    """Cost, fee and the facts of the spends; raises Broken."""
    seen = set()
    for place, spend in enumerate(spends):
        if spend.coin.id in seen:
            raise Broken(2, place)
        seen.add(spend.coin.id)
    cost, facts = BYTE_COST * EMPTY_GENERATOR, []
    for place, spend in enumerate(spends):
        try:
            facts.append(facts_of(spend, limit))
        except BrokenSpend as broken:
            raise Broken(broken.rule, place) from None
        cost += facts[-1].run_cost + BYTE_COST * facts[-1].bytes
        if cost > limit:
            raise Broken(5, place)
    return cost, List(chain, facts, attested).check(), facts
