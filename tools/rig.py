"""What the rehearsals want: stations and a rig by docs/PROTOCOL.md and docs/RIG.md once more, in Python.

python3 tools/rig.py prints it. It reads nothing of the crates. The networks are those of expected.py, and a gate.
"""

from expected import Bag, Lanes

BLANK = 2


class Gate:
    """It shuts when 40 messages wait, and opens again when fewer than 16 do; while it is shut it turns all away."""

    def __init__(self):
        self.messages = []
        self.shut = False

    def post(self, addressee, message):
        if self.shut:
            return False
        self.messages.append(message)
        self.shut = len(self.messages) == 40
        return True

    def take(self, hint):
        if not self.messages:
            return None
        answer = self.messages.pop(0)
        self.shut = self.shut and len(self.messages) >= 16
        return answer


def grading(values):
    bits = [value for value in values if value != BLANK]
    if len(bits) != 1:
        return None, 0
    return bits[0], 1 if BLANK in values else 2


class Station:
    """An own station under a rule by counting: a set is blocking above s members, a quorum from n - s on."""

    def __init__(self, rig, opening):
        self.rig = rig
        self.stage = 0
        self.inputs = {0: opening}
        self.heard_prepares = {}
        self.heard_proposals = {}
        self.heard_commits = {}
        self.prepared = set()
        self.admitted = set()
        self.gradings = {}
        self.committed = None
        self.decision = None

    def hear(self, sender, kind, stage, value):
        end = 4 * self.rig.rounds
        if kind == 1 and value <= 2 and stage < end:
            heard = self.heard_prepares.setdefault((stage, value), set())
        elif kind == 2 and value <= 2 and stage < end:
            if (stage, sender) in self.heard_proposals:
                return 0
            self.heard_proposals[stage, sender] = value
            return 1
        elif kind == 3 and value <= 1 and stage == 0:
            heard = self.heard_commits.setdefault(value, set())
        else:
            return 0
        new = sender not in heard
        heard.add(sender)
        return int(new)

    def is_blocking(self, stations):
        return len(stations) > self.rig.s

    def is_quorum(self, stations):
        return self.rig.n - len(stations) <= self.rig.s

    def turn(self):
        """The act as rule, stage and value, and what it says as kind, stage and value; none where nothing is due."""
        end = 4 * self.rig.rounds
        for stage in range(min(self.stage + 1, end)):
            opening = self.inputs.get(stage)
            if stage == self.stage and (stage, opening) not in self.prepared:
                self.prepared.add((stage, opening))
                return (1, stage, opening), (1, stage, opening)
            for value in range(3):
                heard = self.heard_prepares.get((stage, value), set())
                if (stage, value) not in self.prepared and self.is_blocking(heard):
                    self.prepared.add((stage, value))
                    return (2, stage, value), (1, stage, value)
            for value in range(3):
                heard = self.heard_prepares.get((stage, value), set())
                if (stage, value) not in self.admitted and self.is_quorum(heard):
                    first = all((stage, other) not in self.admitted for other in range(3))
                    self.admitted.add((stage, value))
                    return (3, stage, value), (2, stage, value) if first else None
            if stage == self.stage:
                backed = {
                    sender: value
                    for (at, sender), value in self.heard_proposals.items()
                    if at == stage and (stage, value) in self.admitted
                }
                if self.is_quorum(backed):
                    return self.close(set(backed.values()))
        for bit in range(2):
            if self.decision is None and self.is_blocking(self.heard_commits.get(bit, set())):
                self.decision = bit
                return (5, 0, bit), None
        return None

    def close(self, values):
        stage, said = self.stage, None
        bit, grade = grading(values)
        following = bit if grade == 2 else BLANK
        if stage % 2 == 1:
            self.gradings[stage] = bit, grade
        if stage % 4 == 1 and grade < 2:
            following = self.rig.coin[stage // 4]
        if stage % 4 == 3:
            following = bit if grade > 0 else self.inputs[stage - 1]
            if grade == 2 and self.committed is None:
                self.committed = bit
                said = 3, 0, bit
        self.stage += 1
        self.inputs[self.stage] = following
        return (4, stage, sum(1 << value for value in values)), said


class Rig:
    def __init__(self, n, s, rounds, guests, openings, coin, network):
        self.n, self.s, self.rounds, self.coin, self.network = n, s, rounds, coin, network
        self.stations = {i: Station(self, int(i in openings)) for i in range(n) if i not in guests}
        self.posted = self.missing = self.waiting = 0

    def turn(self, i):
        if i not in self.stations:
            return 12 if i < self.n else 11
        done = self.stations[i].turn()
        if done is None:
            return 13
        act, said = done
        for to in range(self.n) if said else []:
            self.posted += 1
            if self.network.post(to, (i, to, *said)):
                self.waiting += 1
            else:
                self.missing += to in self.stations
        return act

    def send(self, message):
        if not self.network.post(message[1], message):
            return 16
        self.waiting += 1
        return None

    def deliver(self, hint):
        message = self.network.take(hint)
        if message is None:
            return 14
        self.waiting -= 1
        sender, to, *said = message
        return message, self.stations[to].hear(sender, *said) if to in self.stations else 0

    def lose(self, hint):
        message = self.network.take(hint)
        if message is None:
            return 14
        self.waiting -= 1
        self.missing += message[0] in self.stations and message[1] in self.stations
        return message

    def outcome(self):
        return self.posted, self.missing, {
            i: (s.stage, s.decision, sorted(s.gradings.items())) for i, s in self.stations.items()
        }


def play(rig, hint, loses=False):
    """Every station acts while it can, twelve messages come, and so on; answers how often, until a time without any.

    With losses, the fourth of each twelve is lost.
    """
    for times in range(2000):
        quiet = rig.waiting == 0
        for i in range(rig.n):
            while isinstance(rig.turn(i), tuple):
                quiet = False
        if quiet:
            return times
        for place in range(12):
            if loses and place == 3:
                rig.lose(hint)
            else:
                rig.deliver(hint)
            hint = (hint + 37) % 256
    return None


def tell_everyone_another(rig, guest):
    """A guest prepares and proposes another value to each own station, 0, 1 and blank, in every stage; it commits both bits."""
    for stage in range(4 * rig.rounds):
        for to in range(3):
            rig.send((guest, to, 1, stage, to))
            rig.send((guest, to, 2, stage, to))
    for to in range(3):
        for bit in range(2):
            rig.send((guest, to, 3, 0, bit))


def tell(name, rig, loses=False):
    times = play(rig, 5, loses)
    posted, missing, stations = rig.outcome()
    print(f"{name}: times {times}, posted {posted}, missing {missing}")
    for i, (stage, decision, gradings) in stations.items():
        print("   ", i, stage, decision, gradings)


def main():
    for name, network in (("bag", Bag), ("lanes", Lanes)):
        for openings in ({0, 1, 3}, {2}):
            rig = Rig(4, 1, 2, set(), openings, [1, 0], network())
            tell(f"{name}, four stations of which {sorted(openings)} open with 1", rig)
        for openings in ({0, 2}, {0, 1, 2}):
            rig = Rig(4, 1, 2, {3}, openings, [0, 1], network())
            tell_everyone_another(rig, 3)
            tell(f"{name}, with a guest 3 that tells everyone another thing, {sorted(openings)}", rig)
        rig = Rig(4, 1, 2, set(), {0, 1, 3}, [1, 0], network())
        tell(f"{name}, with losses", rig, True)
        rig = Rig(10, 3, 8, {9}, {0, 2, 3, 6, 7}, [0, 1] * 4, network())
        tell(f"{name}, ten stations and eight rounds", rig)
    rig = Rig(5, 1, 2, set(), {0, 1}, [1, 0], Gate())
    tell("gate, five stations of which [0, 1] open with 1", rig)


if __name__ == "__main__":
    main()
