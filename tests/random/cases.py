"""Random cases: command files and a schedule for a few seats with little room."""
from dataclasses import dataclass


@dataclass(frozen=True)
class Case:
    """What a replay is called with: the words, the commands of each seat, and the entries of the schedule."""

    client: str
    cap: int
    limit: int
    files: tuple
    entries: tuple

    def words(self):
        """The words behind the program's name, with the names of the files as in `texts`."""
        names = [f"f{seat}" for seat in range(len(self.files))]
        return ["replay", self.client, str(self.cap), str(self.limit), "s", *names]

    def texts(self):
        """The files by their names."""
        files = {f"f{seat}": "".join(f"{command}\n" for command in file) for seat, file in enumerate(self.files)}
        files["s"] = "".join(f"{seat} {span}\n" for seat, span in self.entries)
        return files

    def is_whole(self):
        """Whether the schedule's end lets each seat make all its calls."""
        last = self.entries[len(self.entries) - len(ending(self.files)):]
        return last == ending(self.files)


def ending(files):
    """An entry for each command, so that each seat ends all its calls, whatever came before."""
    return tuple((seat, "end") for seat, file in enumerate(files) for _ in file)


def command(random, client, value):
    """A command of the client. Few keys, so that calls meet; each value is put once, but for a few."""
    if client == "queue":
        if random.random() < 0.5:
            return f"put {random.choice([value, value, value, 4294967295 - value, 0])}"
        return random.choice(["take", "take", "peek"])
    if client == "list" and random.random() < 0.2:
        return "min"
    key = random.choice([0, 1, 1, 2, 33, 1048575])
    if client == "tree":
        return random.choice([f"set {key} {value}", f"set {key} {4294967295 - value}", f"rem {key}", f"rem {key}", f"get {key}"])
    return f"{random.choice(['add', 'add', 'del', 'del', 'has'])} {key}"


def grained(random, seats, count):
    """So many entries of one grain, from single steps to whole calls, that may look for exchanges often."""
    grain = random.choice([1, 2, 5, 15, 40, 120])
    words = random.choice([0.0, 0.1, 0.5])
    entries = []
    for _ in range(count):
        span = str(1 + int(random.expovariate(1 / grain)))
        if random.random() < words:
            span = random.choice(["exchange", "exchange", "end"])
        entries.append((random.randrange(seats), span))
    return tuple(entries)


def stopped(random, seats, count):
    """Seats that stop anywhere in a call, and others that make whole calls meanwhile."""
    entries = []
    while len(entries) < count:
        sleeper = random.randrange(seats)
        span = random.choice(["exchange", str(random.randint(1, 20)), str(random.randint(1, 80))])
        entries.append((sleeper, span))
        for _ in range(random.choice([0, 1, 1, 2, 5, 10])):
            entries.append(((sleeper + random.randint(1, max(seats - 1, 1))) % seats, "end"))
    return tuple(entries)


def case(random, clients, limits):
    """A case of these clients and limits."""
    client = random.choice(clients)
    seats = random.choice([1, 2, 2, 2, 3, 3, 3, 4, 5, 6, 7, 8])
    longest = random.choice([4, 4, 10]) if seats < 5 else 4
    lengths = [random.randint(0 if seats > 1 else 1, longest) for _ in range(seats)]
    value = iter(range(1, 1000))
    files = tuple(tuple(command(random, client, next(value)) for _ in range(length)) for length in lengths)
    spans = random.choice([grained, stopped])
    entries = spans(random, seats, random.choice([0, 3, 10, 40, 200]))
    if random.random() < 0.8:
        entries += ending(files)
    return Case(client, random.choice([1, 2, 3, 4, 9, 16, 64, 64]), random.choice(limits), files, entries)
