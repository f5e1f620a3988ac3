#!/usr/bin/env python3
"""A story of newcomers, from drawn calls, for `wire_tests/src/newcomer_stories.rt`: names wait under hosts, and are taken in laps.

    model/newcomers.py [SEED] [CALLS]

Each call is worked out over the whole list of rows: of a host one name in a lap; a new one in the lap after its last one's, or after that
of the name that was taken last; behind all rows of no later lap; and where there is a row too many, the last one goes.
"""
import random
import sys

LIMIT = 6


class Newcomers:
    def __init__(self, limit):
        self.limit, self.lap, self.rows = limit, 0, []

    def add(self, host, name):
        laps = [lap for lap, whose, _ in self.rows if whose == host]
        row = ((laps[-1] if laps else self.lap) + 1, host, name)
        ahead = [it for it in self.rows if it[0] <= row[0]]
        self.rows = (ahead + [row] + [it for it in self.rows if it[0] > row[0]])[:self.limit]

    def take(self, most):
        taken, self.rows = self.rows[:most], self.rows[most:]
        if taken:
            self.lap = taken[-1][0]
        return [name for _, _, name in taken]


def story(seed, calls):
    """The lines of a story."""
    source = random.Random(seed)
    rows = Newcomers(LIMIT)
    lines = []
    for number in range(calls):
        if source.random() < 0.7:
            host = source.choice([1, 1, 1, 2, 3])
            name = f"{chr(96 + host)}{number}"
            rows.add(host, name)
            lines += [f"come {host}: {name.encode().hex()}", f"> {len(rows.rows)}"]
        else:
            most = source.randrange(4)
            lines += [f"welcome {most}", "> " + " ".join(["welcome", *rows.take(most)])]
        if source.random() < 0.1:
            host = source.choice([1, 2, 3])
            lines += [f"waits {host}", f"> {str(any(it[1] == host for it in rows.rows)).lower()}"]
    return lines


if __name__ == "__main__":
    given = [int(it) for it in sys.argv[1:]]
    print("\n".join(story(*given, *[1, 60][len(given):])))
