"""The weight models of the Niagara paper's section 7.1, its traffic volumes, and two plain random draws; weights in parts, of four decimals."""
from sheets import drawn_decimals, finest, unit, weights


def rounded(drawn, decimals=drawn_decimals):
    """Drawn weights scaled to a sum of 100 percent, with so many decimals: rounded down, then one more to the largest remainders."""
    part = finest(decimals)
    all_parts = unit // part
    exact = [w * all_parts / sum(drawn) for w in drawn]
    down = [int(w) for w in exact]
    by_remainder = sorted(range(len(drawn)), key=lambda j: down[j] - exact[j])
    for j in by_remainder[:all_parts - sum(down)]:
        down[j] += 1
    return [part * w for w in down]


def normal(rng, mean):
    # A weight isn't below zero; the paper is silent on such a draw, about 3 in 100,000 at mean 4. It is drawn again.
    while (w := rng.gauss(mean, 1)) < 0:
        pass
    return w


def either(rng):
    return normal(rng, rng.choice((4, 16)))


def gaussian(rng, backends):
    return rounded([normal(rng, 4) for _ in range(backends)])


def bimodal(rng, backends):
    return rounded([either(rng) for _ in range(backends)])


def pick(rng, backends):
    """Each subset of the backends is as likely as any other; the empty one is drawn again."""
    while not any(chosen := [rng.random() < 0.5 for _ in range(backends)]):
        pass
    return rounded([either(rng) if c else 0 for c in chosen])


def scaled(rng, backends):
    return rounded([rng.random() for _ in range(backends)])


models = {"Gaussian": gaussian, "Bimodal Gaussian": bimodal, "Pick Next-hop": pick}
plain = {"Random cuts": weights, "Uniform, scaled": scaled}


def zipf(services, largest=10000):
    """The i-th service has 1/i of the first one's volume, rounded to a whole number."""
    return [round(largest / i) for i in range(1, services + 1)]
