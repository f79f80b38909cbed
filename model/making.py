"""The generated session."""
from trees import shortest, spelling

ONE_HASH = '9dcf97a184f32623d11a73124ceb99a5709b083721e878a16d78f596718ba7b2'
GENESIS, REWARD_HASH = '11' * 32, '22' * 32


# A coin of its own for each admit, of 1000 and the top 20 bits of the numbers that follow the seed.
def made(seed, commands, lanes):
    """The lines: every eighth command is a farm, the others admit a bundle that leaves 100 of its coin as fee."""
    lines = ['{"session":1,"genesis":"%s","seconds":0,"lanes":%d}' % (GENESIS, lanes)]
    coins, state = {}, seed
    for number in range(commands):
        state = (state * 6364136223846793005 + 1442695040888963407) % 2 ** 64
        if number % 8 != 7:
            amount = 1000 + (state >> 44)
            coins[number] = amount, '{"parent_coin_info":"%s","puzzle_hash":"%s","amount":%d}' % (
                '00' * 24 + '%016x' % number, ONE_HASH, amount)
            lines.append('{"coin":%s}' % coins[number][1])
    for number in range(commands):
        if number in coins:
            amount, coin = coins[number]
            solution = 'ffff33ffa0%sff%s8080' % (ONE_HASH, spelling(shortest(amount - 100)).hex())
            lines.append('{"lane":%d,"do":"admit","bundle":{"coin_spends":[{"coin":%s,"puzzle_reveal":"01","solution":"%s"}],'
                         '"aggregated_signature":""}}' % (number % lanes, coin, solution))
        else:
            lines.append('{"lane":0,"do":"farm","seconds":%d,"reward_hash":"%s"}' % (100 * (number + 1), REWARD_HASH))
    return lines
