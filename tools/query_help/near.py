"""Which names may have been meant by another one."""


def edits(one: str, two: str) -> int:
    """The number of letters put in, left out, changed or swapped with the next that leads from one to the other."""
    before: list[int] = []
    row = list(range(len(two) + 1))
    for i, letter in enumerate(one, 1):
        last, before, row = before, row, [i]
        for j, other in enumerate(two, 1):
            cost = min(before[j] + 1, row[j - 1] + 1, before[j - 1] + (letter != other))
            if i > 1 and j > 1 and letter == two[j - 2] and one[i - 2] == other:
                cost = min(cost, last[j - 2] + 1)
            row.append(cost)
    return row[-1]


def alike(name: str, candidates: list[str]) -> list[str]:
    """The candidates that may have been meant, the nearest first, at most three."""
    ranked = []
    for candidate in dict.fromkeys(candidates):
        longest = max(len(name), len(candidate))
        most = 0 if longest == 1 else 1 if longest <= 4 else 2 if longest <= 8 else 3
        distance = edits(name.lower(), candidate.lower())
        if candidate != name and (distance <= most or is_inside(name, candidate)):
            ranked.append((min(distance, most + 1), candidate))
    return [candidate for _, candidate in sorted(ranked)[:3]]


def is_inside(one: str, two: str) -> bool:
    """Is one of the words a part of the other?"""
    short, long = sorted((one.lower(), two.lower()), key=len)
    return len(short) >= 3 and short in long
