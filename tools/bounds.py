"""What a campaign over a sample says about all faults that the sample is drawn from: counts by class of site, and bounds."""
import json
import math

from common import SITES, VERDICTS, Refused

# The probability that a bound lies below the true share is at most this.
DOUBT = 0.05
CLASSES = ("registers", "d", "counters", "queue")


def class_of(site):
    """The class of a site: a register, d, a program counter, or a half of a pending store."""
    return {"r": "registers", "d": "d", "p": "counters", "q": "queue"}[site[0]]


def tail(count, drawn, share):
    """The probability that at most `count` of `drawn` have a property that a `share` of all have: a binomial tail."""
    if share >= 1:
        return float(count >= drawn)
    if share <= 0:
        return 1.0
    mode = min(count, int((drawn + 1) * share))
    log = (math.lgamma(drawn + 1) - math.lgamma(mode + 1) - math.lgamma(drawn - mode + 1)
           + mode * math.log(share) + (drawn - mode) * math.log1p(-share))
    # Sums from the largest term outwards in both directions, until terms become negligible.
    odds, total = share / (1 - share), 1.0
    term, at = 1.0, mode
    while at > 0 and term > 1e-18:
        term *= at / (drawn - at + 1) / odds
        at, total = at - 1, total + term
    term, at = 1.0, mode
    while at < count and term > 1e-18:
        term *= (drawn - at) / (at + 1) * odds
        at, total = at + 1, total + term
    return min(1.0, math.exp(log + math.log(total)))


def upper(count, drawn, doubt=DOUBT):
    """The upper bound on a share by Clopper and Pearson (1934): the share at which `count` or fewer occur with
    probability `doubt`. For a sample without replacement, as tools/faults draws it, the bound is at least as safe."""
    if drawn == 0 or count >= drawn:
        return 1.0
    low, high = count / drawn, 1.0
    for _ in range(60):
        middle = (low + high) / 2
        if tail(count, drawn, middle) > doubt:
            low = middle
        else:
            high = middle
    return high


def about(places_of, each, drawn, words):
    """What tools/faults records about a list: how many faults of each class it is drawn from, how many it has, and the
    arguments that made it."""
    of = {name: places * each for name, places in places_of.items()}
    return json.dumps({"of": of, "drawn": drawn, "words": words}) + "\n"


def read_about(path):
    """Reads what is recorded about a list, with the counts as integers."""
    try:
        with open(path, encoding="utf-8") as file:
            told = json.load(file)
        of = {name: int(told["of"][name]) for name in CLASSES}
        return of, int(told["drawn"]), str(told["words"])
    except (ValueError, KeyError, TypeError) as error:
        raise Refused(f"{path}: is not a file that `talft-faults --about` wrote") from error


def share(value):
    """A share in percent, with three significant digits."""
    return f"{float(f'{100 * value:.3g}'):g} %"


def summary(counts, told):
    """Lines with the counts by class, and what they say about all faults. `told` is what `read_about` returns."""
    of, drawn, words = told
    by_class = {name: dict.fromkeys(VERDICTS, 0) for name in CLASSES}
    for (site, verdict), count in counts.items():
        by_class[class_of(site)][verdict] += count
    numbers = {name: sum(here.values()) for name, here in by_class.items()}
    if sum(numbers.values()) != drawn or any(numbers[name] > of[name] for name in CLASSES):
        raise Refused(f"the {sum(numbers.values())} faults of the list are not the {drawn} of {sum(of.values())} that "
                      "--about describes")
    is_all = drawn == sum(of.values())
    yield (f"exhaustive: all {drawn} faults of `{words}` were tried" if is_all else
           f"sampled: {drawn} of the {sum(of.values())} faults of `{words}`; in brackets, upper bounds on the shares at "
           "95 % confidence (Clopper and Pearson)")
    rows = [(name, by_class[name], numbers[name], of[name]) for name in CLASSES if of[name]]
    whole = {verdict: sum(here[verdict] for here in by_class.values()) for verdict in VERDICTS}
    for name, here, number, population in rows + [("all", whole, drawn, sum(of.values()))]:
        cells = (f"{verdict} {count}" + ("" if number == population else f" ({share(upper(count, number))})")
                 for verdict, count in here.items())
        yield f"  {name:9} {number} of {population}: {', '.join(cells)}"


assert {class_of(site) for site in SITES} == set(CLASSES)
