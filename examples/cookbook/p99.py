#!/usr/bin/env python3
"""Prints and draws the times within which half, 95 and 99 of 100 packets of each flow came through the queue.

Usage: p99.py TRACE [PICTURE]
Needs pandas, and matplotlib for the picture (on Debian: apt-get install python3-pandas python3-matplotlib).
"""

import sys
from pathlib import Path

import pandas

import marple

trace, *picture = sys.argv[1:]
table = marple.run(Path(__file__).with_name("histogram.query"), trace)["r"].to_pandas(addresses=True)
packets = table["packets"].unstack("ms", fill_value=0).sort_index(axis="columns")
upto, total = packets.cumsum(axis="columns"), packets.sum(axis="columns")
within = {f"p{p}": (100 * upto).ge(p * total, axis="index").idxmax(axis="columns") for p in (50, 95, 99)}
percentiles = pandas.DataFrame(within)
print(percentiles.reset_index().to_string(index=False))
if picture:
    named = percentiles.set_axis([f"{srcip}:{srcport} to {dstip}:{dstport}" for srcip, dstip, srcport, dstport, _ in percentiles.index])
    axes = named.plot.barh(width=0.7, figsize=(7, 3))
    axes.invert_yaxis()
    axes.set_axisbelow(True)
    axes.grid(axis="x")
    axes.set_xlabel("ms in the queue")
    axes.legend(loc="upper left", bbox_to_anchor=(1, 1))
    axes.figure.savefig(picture[0], bbox_inches="tight")
