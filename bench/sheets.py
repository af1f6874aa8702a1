"""Sheets for measuring. Percentage sheets have random weights that sum to 100 percent, the same for the same seed."""
import random

# The most decimals of a percentage, and 100 percent in the parts that it counts.
most_decimals = 6
unit = 100 * 10 ** most_decimals
# The decimals of a drawn weight, if nothing else is said: as before percentages had six, so that figures of then and now are of the same sheets.
drawn_decimals = 4


def percent(parts):
    """Parts as a percentage, without zeros at its end."""
    whole, rest = divmod(parts, 10 ** most_decimals)
    return f"{whole}.{rest:0{most_decimals}d}".rstrip("0").rstrip(".") if rest else str(whole)


def finest(decimals):
    """The parts of the last of so many decimals."""
    return 10 ** (most_decimals - decimals)


def weights(rng, backends, decimals=drawn_decimals):
    """Backends' weights in parts, of at most so many decimals: the gaps between random cuts."""
    part = finest(decimals)
    cuts = sorted(rng.randrange(unit // part + 1) for _ in range(backends - 1))
    edges = [0] + cuts + [unit // part]
    return [part * (b - a) for a, b in zip(edges, edges[1:])]


def sparse(place):
    """The id of the backend at a place from 1: four digits, with gaps, as a user's would be."""
    return 7 * place + 1000


def service(volume, ids, parts):
    """The line of a service, for weights in parts."""
    return "SERVICE %d %s" % (volume, " ".join("%d:%s" % (i, percent(w)) for i, w in zip(ids, parts)))


def sheet(services, backends, k, capacity, tolerance="0", seed=1, ids=None, decimals=drawn_decimals):
    """Every service has these ids; sparse ones, if none are given. Percentages have at most so many decimals."""
    rng = random.Random(seed)
    ids = ids or [sparse(place) for place in range(1, backends + 1)]
    lines = [f"SHEET {k} {tolerance} {capacity}"]
    for _ in range(services):
        row = weights(rng, backends, decimals)
        lines.append(service(rng.randrange(1, 10001), ids, row))
    return ("\n".join(lines) + "\n").encode()


def scattered(k, ids, first):
    """A rule sheet of one service whose stages have many lines: suffixes of k bits far apart in the order of places, from this place on, then `*`."""
    step = 2 ** k // len(ids)
    places = [first + step * n for n in range(len(ids) - 1)]
    lines = ["TABLE %d %d 0" % (k, len(ids))]
    lines += ["1 *%s %d" % (format(place, "0%db" % k)[::-1], i) for place, i in zip(places, ids)]
    return ("\n".join([*lines, "1 * %d" % ids[-1]]) + "\n").encode()
