"""What the tests of networks and coins want: bag, lanes and seed coin of docs/NETWORKS.md once more, in Python.

python3 tools/expected.py prints it. It reads nothing of the crates.
"""


class Bag:
    def __init__(self):
        self.messages = []

    def post(self, addressee, number):
        if len(self.messages) == 4096:
            return False
        self.messages.append(number)
        return True

    def take(self, hint):
        if not self.messages:
            return None
        place = hint % len(self.messages)
        answer = self.messages[place]
        self.messages[place] = self.messages[-1]
        self.messages.pop()
        return answer


class Lanes:
    def __init__(self):
        self.queues = [[] for _ in range(10)]

    def post(self, addressee, number):
        queue = self.queues[addressee % 10]
        if len(queue) == 40:
            return False
        queue.append(number)
        return True

    def take(self, hint):
        for passed in range(10):
            queue = self.queues[(hint + passed) % 10]
            if queue:
                return queue.pop(0)
        return None


def emptied(network):
    """How many messages come with the hints 11, 48, 85 and so on, and a digest of their numbers in order."""
    taken, digest, hint = 0, 0, 11
    while (number := network.take(hint)) is not None:
        taken, digest, hint = taken + 1, (digest * 31 + number) % 1000003, (hint + 37) % 256
    return taken, digest


def seed_bit(seed, round):
    z = (seed + (round + 1) * 11400714819323198485) % 2**64
    rotated = (z << 29) % 2**64 | z >> 35
    return bin(z & rotated).count("1") % 2


def main():
    bag = Bag()
    for number in range(6):
        bag.post(0, number)
    print("bag of 0 to 5:", [(hint, bag.take(hint)) for hint in [7, 0, 255, 3, 1, 9, 200]])

    bag = Bag()
    posted = [bag.post(0, number) for number in range(4097)]
    print("full bag:", sum(posted), posted[-1], emptied(bag))

    lanes = Lanes()
    for number, addressee in enumerate([3, 13, 7, 0, 255, 9, 3]):
        lanes.post(addressee, number)
    print("lanes:", [(hint, lanes.take(hint)) for hint in [3, 4, 8, 19, 255, 1, 2, 0]])

    lanes = Lanes()
    posted = [lanes.post(number % 250, number) for number in range(401)]
    print("full lanes:", sum(posted), posted[-1], emptied(lanes))

    seeds = [0, 1, 2**64 - 1, 7046029254386353131, 7046029254923224044, 81985529216486895, 20261127]
    for seed in seeds:
        bits = [seed_bit(seed, round) for round in range(8)]
        print("seed", seed, bits, sum(bit << round for round, bit in enumerate(bits)))
    print("later rounds of seed 1:", [(round, seed_bit(1, round)) for round in [8, 9, 10, 11, 255]])


if __name__ == "__main__":
    main()
