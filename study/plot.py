#!/usr/bin/env python3
"""Draws the figures of docs/STUDY.md from study/results/study.jsonl into study/figures, as SVG. It takes matplotlib
(on Debian python3-matplotlib). The same results give the same files."""
import pathlib

import matplotlib

matplotlib.use("svg")
import matplotlib.pyplot as plt

from results import ENDS, HARTS, HERE, KINDS, LOCKS, MODES, WORKS, Results

COLOURS = {"plain": "#555555", "sle": "#d95f02", "tlr": "#1b6ca8"}
END_COLOURS = ["#4c9f70", "#c0392b", "#8e6bbf", "#e08a1e", "#e3c22f", "#7f8c8d", "#34495e"]
LINES = [1, 2, 4, 6, 8, 10, 12, 14, 16, 18, 19, 20, 21, 24, 28, 32]
WAYS = [1, 2, 3, 4, 5, 6, 7, 8]
LONGS = [2, 20, 40, 60, 80, 100, 120, 140, 160, 180, 200, 300]
SEEDS = [1, 2, 3, 4, 5, 6, 7, 8]

plt.rcParams.update({"svg.hashsalt": "elide", "svg.fonttype": "none", "font.size": 9, "axes.spines.top": False,
                     "axes.spines.right": False, "axes.grid": True, "grid.color": "#e5e5e5", "axes.axisbelow": True})


def save(figure, name):
    folder = HERE / "figures"
    folder.mkdir(exist_ok=True)
    figure.tight_layout()
    figure.savefig(folder / f"{name}.svg", metadata={"Date": None})
    plt.close(figure)


def line(axes, places, values, **looks):
    """A line over the places that have a value, and a cross at the foot of each that has none."""
    known = [(place, value) for place, value in zip(places, values) if value is not None]
    axes.plot(*zip(*known), marker="o", markersize=3.5, **looks)
    none = [place for place, value in zip(places, values) if value is None]
    if none:
        axes.plot(none, [0.03] * len(none), "x", color=looks["color"], transform=axes.get_xaxis_transform())


def from_zero(axes):
    """Lets the values begin at 0, with room above the greatest."""
    axes.set_ylim(0, 1.08 * axes.dataLim.y1)


def rounds(results):
    """Rounds to the end by harts, for each program and for the images of gen."""
    images = [(f"{work}-ttas_sw", work) for work in WORKS] + [(f"gen:{kind}", f"gen {kind.split(':')[0]}") for kind in KINDS]
    figure, grid = plt.subplots(3, 5, figsize=(11, 6.6))
    for axes, (image, title) in zip(grid.flat, images):
        for mode in MODES:
            line(axes, HARTS, [results.rounds(image, harts, mode) for harts in HARTS], color=COLOURS[mode], label=mode)
        axes.set(title=title, xscale="log", xticks=HARTS, xticklabels=HARTS)
        axes.minorticks_off()
        from_zero(axes)
    for axes in grid.flat[len(images):]:
        axes.set_axis_off()
    grid.flat[len(images)].legend(*grid.flat[0].get_legend_handles_labels(), loc="center", title="mode")
    for axes in grid[:, 0]:
        axes.set_ylabel("rounds to the end")
    for axes in grid[2]:
        axes.set_xlabel("harts")
    save(figure, "rounds")


def gains(results):
    """The gain over plain on 8 harts, for each lock over each program, in both modes that elide."""
    figure, both = plt.subplots(1, 2, figsize=(11, 4.6))
    for axes, mode in zip(both, ["sle", "tlr"]):
        table = [[results.gain(f"{work}-{lock}", 8, mode) for work in WORKS] for lock in LOCKS]
        shown = [[1 if gain is None else gain for gain in row] for row in table]
        axes.imshow(shown, cmap="RdYlGn", norm=matplotlib.colors.LogNorm(1 / 4, 4), aspect="auto")
        for row, gains_of_lock in enumerate(table):
            for column, gain in enumerate(gains_of_lock):
                axes.text(column, row, "no end" if gain is None else f"{gain:.2f}", ha="center", va="center")
        axes.set(title=f"plain rounds over {mode} rounds, 8 harts", xticks=range(len(WORKS)), xticklabels=WORKS,
                 yticks=range(len(LOCKS)), yticklabels=LOCKS)
        axes.tick_params(axis="x", rotation=30)
        axes.grid(False)
    save(figure, "gains")


def losses(results):
    """How the sections end that began, on 8 harts."""
    images = [f"{work}-ttas_sw" for work in WORKS] + ["counter-ttas_swap", "counter-mark", "counter-mcs"]
    figure, both = plt.subplots(1, 2, figsize=(11, 4), sharey=True)
    for axes, mode in zip(both, ["sle", "tlr"]):
        left = [0.0] * len(images)
        for end, colour in zip(ENDS, END_COLOURS):
            shares = [results.share(image, 8, mode, end) or 0.0 for image in images]
            axes.barh(images, shares, left=left, color=colour, label=end)
            left = [before + share for before, share in zip(left, shares)]
        for row, image in enumerate(images):
            axes.text(101, row, results.count(image, 8, mode, "began"), va="center", fontsize=8)
        axes.set(title=f"{mode}, 8 harts", xlabel="of 100 sections that began; behind: how many began", xlim=(0, 112))
    both[0].invert_yaxis()
    both[1].legend(loc="center left", bbox_to_anchor=(1.02, 0.5), frameon=False)
    save(figure, "losses")


def limits(results):
    """The effect of lines, ways and long, on 4 harts."""
    figure, grid = plt.subplots(2, 3, figsize=(11, 5.6))
    asked = [("lines", LINES, {}), ("ways", WAYS, {"sets": 4, "lines": 32}), ("long", LONGS, {"lines": 32})]
    for row, work in zip(grid, ["overflow", "readers"]):
        image = f"{work}-ttas_sw"
        for axes, (word, values, others) in zip(row, asked):
            for mode in ["sle", "tlr"]:
                line(axes, values, [results.rounds(image, 4, mode, **{**others, word: value}) for value in values],
                     color=COLOURS[mode], label=mode)
            if word == "ways":
                line(axes, values, [results.rounds(image, 4, "plain", **{**others, word: value}) for value in values],
                     color=COLOURS["plain"], label="plain")
            else:
                axes.axhline(results.rounds(image, 4, "plain"), color=COLOURS["plain"], label="plain")
            axes.set(title=f"{work}: --{word}" + (" (4 sets)" if word == "ways" else ""), xlabel=f"--{word}")
            from_zero(axes)
        row[0].set_ylabel("rounds to the end, 4 harts")
    grid[0][0].legend()
    save(figure, "limits")


def schedules(results):
    """Rounds under the round robin and under eight random schedules, on 4 harts."""
    figure, row = plt.subplots(1, 3, figsize=(11, 3))
    for axes, work in zip(row, ["counter", "accounts", "table"]):
        image = f"{work}-ttas_sw"
        for place, mode in enumerate(MODES):
            drawn = [results.rounds(image, 4, mode, schedule=f"random:{seed}") for seed in SEEDS]
            axes.plot([place] * len(SEEDS), drawn, "o", color=COLOURS[mode], alpha=0.5, label="random")
            axes.plot(place, results.rounds(image, 4, mode), "_", markersize=28, color="black", label="round robin")
        axes.set(title=work, xticks=range(len(MODES)), xticklabels=MODES, xlim=(-0.6, 2.6))
        from_zero(axes)
    row[0].set_ylabel("rounds to the end, 4 harts")
    handles, labels = row[0].get_legend_handles_labels()
    row[0].legend(handles[:2], labels[:2])
    save(figure, "schedules")


def main():
    results = Results()
    for draw in [rounds, gains, losses, limits, schedules]:
        draw(results)


if __name__ == "__main__":
    main()
