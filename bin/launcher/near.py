"""The word that a misspelt word was meant to be."""


def distance(one, other):
    """Returns how many letters have to be put in, left out, changed or swapped with their neighbour to make one word the other."""
    before, row = [], list(range(len(other) + 1))
    for i, a in enumerate(one, 1):
        earlier, before, row = before, row, [i]
        for j, b in enumerate(other, 1):
            best = min(row[j - 1] + 1, before[j] + 1, before[j - 1] + (a != b))
            if i > 1 and j > 1 and a == other[j - 2] and one[i - 2] == b:
                best = min(best, earlier[j - 2] + 1)
            row.append(best)
    return row[-1]


def nearest(word, words):
    """Returns the one of the words that is nearest to a misspelt one, or None where none is near."""
    word = word[:80]
    scored = sorted((distance(word.lower(), it.lower()), place, it) for place, it in enumerate(words))
    if scored and scored[0][0] <= max(1, len(word) // 3):
        return scored[0][2]
    return None
