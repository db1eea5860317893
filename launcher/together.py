"""Numbers of one line that each may be given, but not together."""

# The most terms of a model.
TERMS = 1_048_576


def wrong_together(keyword, numbers):
    """Returns why numbers, each by the word that the usage shows for it, are no line together, or None."""
    check = CHECKS.get(" ".join(keyword))
    return check(numbers) if check else None


def binary(given):
    """Of a random problem of constraints on two variables."""
    pairs, values = given["N"] * (given["N"] - 1) // 2, given["D"] ** 2
    if given["EDGES"] > pairs:
        return f"EDGES is {pairs:,} at most, the pairs of {given['N']} variables"
    if given["PAIRS"] > values:
        return f"PAIRS is {values:,} at most, the pairs of {given['D']} values"
    terms = given["EDGES"] * (2 * (values - given["PAIRS"]) + 2)
    return f"a model has {TERMS:,} terms at most, and this one would have {terms:,}" if terms > TERMS else None


def meetings(given):
    """Of people who agree on the hours of their meetings."""
    if given["EACH"] > given["PEOPLE"]:
        return f"EACH is {given['PEOPLE']} at most, as many as there are people"
    if given["BUSY"] >= given["HOURS"]:
        return f"BUSY is {given['HOURS'] - 1} at most, so that each person has a free hour"
    return None


def sensors(given):
    """Of sensors on a square that track targets together."""
    most = given["SIDE"] ** 2
    return f"SEES is {most} at most, as many as there are sensors" if given["SEES"] > most else None


def survey(given):
    """Of runs under seeds that follow one another."""
    last = given.get("SEED", 0) + given["COUNT"] - 1
    return f"the last seed is 2^64 - 1 at most, and {last} is not" if last >= 2**64 else None


CHECKS = {"gen binary": binary, "gen meetings": meetings, "gen sensors": sensors, "survey": survey}
