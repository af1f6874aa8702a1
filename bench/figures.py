"""The picture docs/paper.svg and the tables of docs/PAPER.md, from the rows of docs/paper-rules.csv and docs/paper-imbalance.csv."""
from chart import Panel, picture

colours = {"Gaussian": "#0072B2", "Bimodal Gaussian": "#D55E00", "Pick Next-hop": "#009E73", "Random cuts": "#000000", "Uniform, scaled": "#CC79A7"}
grey = {"stroke": "#888", "stroke_dasharray": "5 4"}


def distribution(rows):
    """Points (rules, percent of the services that need no more), and the median: the first point at 50 or above."""
    all_services = sum(int(r["services"]) for r in rows)
    below, points = 0, []
    for r in rows:
        below += int(r["services"])
        points.append((int(r["rules"]), 100 * below / all_services))
    return points, next(p for p in points if p[1] >= 50)


def rules_panel(data):
    panel = Panel((70, 60, 460, 330), (0, 22), (0, 100))
    panel.axes("(a) Rules for one service of 8 backends, tolerance 0.1", "rules of the service", "services that need no more, percent", range(0, 23, 2), range(0, 101, 10))
    panel.line([(14, 0), (14, 100)], **grey)
    panel.words(panel.x(14), panel.top - 6, "paper: median 14", text_anchor="middle", fill="#555")
    panel.line([(0, 50), (22, 50)], **grey)
    keys = []
    for name, rows in data.items():
        points, median = distribution(rows)
        panel.line([(0, 0), (points[0][0] - 1, 0)] + points + [(22, 100)], stroke=colours[name])
        for point in points:
            panel.dot(point, colours[name])
        panel.mark(median, {"dot": colours[name]})
        keys.append(("%s: median %d" % (name, median[0]), {"stroke": colours[name]}, 230))
    keys.append(("median: first point at 50 or above", {"dot": "#888"}, 230))
    panel.legend([keys[i:i + 2] for i in range(0, len(keys), 2)])
    return panel


def imbalance_panel(data):
    panel = Panel((640, 60, 460, 330), (0, 2048), (0.1, 100), log=True)
    panel.axes("(b) 64 services of 16 backends in one table", "table size C, rules", "imbalance, percent of the traffic (log scale)", range(0, 2049, 256), (0.1, 0.2, 0.5, 1, 2, 5, 10, 20, 50, 100))
    for name, rows in data.items():
        panel.line([(int(r["C"]), float(r["percent"])) for r in rows], stroke=colours[name])
    paper = {"cross": colours["Pick Next-hop"]}
    panel.mark((512, 3.3), paper)
    models = [(name, {"stroke": colours[name]}, 33 + 9 * len(name)) for name in data]
    panel.legend([models, [("paper, Pick Next-hop, 500 services: 3.3 at 4,000 rules, 8 a service", paper, 0)]])
    return panel


def draw(path, rules, imbalance):
    with open(path, "w") as f:
        f.write(picture(1140, 510, [rules_panel(rules), imbalance_panel(imbalance)]))


def tables(rules, imbalance):
    print("\n| model | median | mean | fewest | most |\n|---|---|---|---|---|")
    for name, rows in rules.items():
        each = [(int(r["rules"]), int(r["services"])) for r in rows]
        mean = sum(n * s for n, s in each) / sum(s for _, s in each)
        print("| %s | %d | %.2f | %d | %d |" % (name, distribution(rows)[1][0], mean, each[0][0], each[-1][0]))
    shown = (64, 128, 256, 512, 1024, 1536, 2048)
    print("\n| model | %s | outside the tolerance at 2,048 |\n|%s" % (" | ".join(map("C {:,}".format, shown)), "---|" * (len(shown) + 2)))
    for name, rows in imbalance.items():
        at = {int(r["C"]): r for r in rows}
        cells = " | ".join("%.2f %%" % float(at[c]["percent"]) for c in shown)
        print("| %s | %s | %s of %d |" % (name, cells, at[2048]["outside tolerance"], 64 * int(at[2048]["sheets"])))
