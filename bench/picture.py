"""Draws what a run of bench.py measured, by Debian's python3-matplotlib."""

import datetime
from pathlib import Path
from typing import Any

from peers import OWN

OWN_COLOUR, OTHER_COLOUR = "#1f6f8b", "#c4c9cf"
NOTE = "check of Go's driver and of org.bson takes bad UTF-8; a document with doubles can't be packed by bsonfind"
# The megabytes a second of each program, by the task.
Speeds = dict[str, dict[str, float]]


def draw(without: Speeds, doubles: Speeds, about: str, file: Path) -> None:
    """Writes a picture of dumps without doubles and with them, and says so; or that this python has no matplotlib."""
    try:
        import matplotlib
    except ImportError:
        print("\nno picture: this python has no matplotlib (Debian's python3-matplotlib)")
        return
    matplotlib.use("svg")
    # Text stays text, and the same figures give the same bytes.
    matplotlib.rcParams |= {"svg.fonttype": "none", "svg.hashsalt": OWN, "font.sans-serif": ["DejaVu Sans"], "font.size": 9}
    from matplotlib import pyplot

    figure, rows = pyplot.subplots(2, len(without), sharex="col", figsize=(13, 4.8), layout="constrained")
    for axes, speeds, own in zip(rows, (without, doubles), (OWN, "bsonwide")):
        for axis, of in zip(axes, speeds.values()):
            _draw_bars(axis, {own: of.get(OWN, 0.0)} | {name: speed for name, speed in of.items() if name != OWN}, own)
    for axis, title in zip(rows[0], without):
        axis.set_title(title, fontweight="bold")
    for axes, label in zip(rows, ("without doubles", "with doubles in each")):
        axes[0].set_ylabel(label)
    figure.suptitle("Megabytes a second, by the clock", fontsize=11)
    figure.supxlabel(f"{about}, {datetime.date.today():%-d %B %Y}; {NOTE}", fontsize=8)
    figure.savefig(file, metadata={"Date": None, "Creator": None})
    pyplot.close(figure)
    # No line ends with a space.
    file.write_text("".join(f"{line.rstrip()}\n" for line in file.read_text(encoding="utf-8").splitlines()), encoding="utf-8")
    print(f"\ndrawn: {file}")


def _draw_bars(axis: Any, speeds: dict[str, float], own: str) -> None:
    """Draws the bars of a task, the fastest first."""
    names = sorted(speeds, key=speeds.__getitem__)
    bars = axis.barh(names, [speeds[name] for name in names], color=[OWN_COLOUR if name == own else OTHER_COLOUR for name in names])
    axis.bar_label(bars, [_text(speeds[name]) for name in names], padding=3)
    axis.margins(x=0.2)
    axis.xaxis.set_visible(False)
    axis.spines[["top", "right", "bottom"]].set_visible(False)


def _text(speed: float) -> str:
    if speed == 0:
        return "no"
    return f"{speed:,.0f}" if speed >= 10 else f"{speed:.1f}"
