#!/usr/bin/env python3
"""Judges a plan text by the definitions alone: check_plan.py SETUP FORECAST PLAN."""
import csv, sys, tomllib

setup = tomllib.load(open(sys.argv[1], "rb"))
steps = [{key: int(cell) for key, cell in row.items()} for row in csv.DictReader(open(sys.argv[2]))]
words = [line.split() for line in open(sys.argv[3])]
words = words[: next((n for n, line in enumerate(words) if line[0] == "first"), len(words))]
stores = {store["id"]: store for store in setup["store"]}
limits = {limit["channel"]: limit["blocks"] for limit in setup.get("limit", [])}
during = setup.get("arrivals") == "during"

def limit(step, channel):
    return min(limits.get(channel, 10**6), step.get(f"limit:{channel}", 10**6))

def size(step, name):
    return min(stores[name]["size"], step.get(f"size:{name}", 10**6))

dumps = [dict(zip(stores, map(int, line[2:]))) for line in words if line[0] == "dump"]
loss, held = 0, {name: store.get("start", 0) for name, store in stores.items()}
for step, dump in zip(steps, dumps, strict=True):
    assert sum(dump.values()) <= step["window"], "more than the window"
    for channel in range(8):
        sent = sum(dump[name] for name in stores if stores[name]["channel"] == channel)
        assert sent <= limit(step, channel), "more than the channel's limit"
    for name in stores:
        there, most = held[name] + step[name], size(step, name)
        kept = there if during else min(there, most)  # what is there to be sent
        left = max(0, kept - dump[name])
        held[name] = min(left, most)
        loss += there - kept + left - held[name]

bound, inner, seen = 0, [set() for _ in steps], set()
for _, name, first, last in (line for line in words if line[0] == "stretch"):
    span = range(int(first) - 1, int(last))
    assert span and not seen & {(name, n) for n in span}, "a bad stretch"
    seen |= {(name, n) for n in span}
    bound += sum(steps[n][name] for n in span) - size(steps[span[-1]], name)
    bound += (first == "1") * stores[name].get("start", 0)
    for n in span if during else span[:-1]:
        inner[n].add(stores[name]["channel"])
counted = {int(line[1]) - 1 for line in words if line[0] == "count"}
for n in (n for n in range(len(steps)) if inner[n]):
    bound -= sum(limit(steps[n], channel) for channel in inner[n]) if n in counted else steps[n]["window"]
print(f"loss {loss}, bound {bound}:", "no plan loses fewer" if loss == bound else "not shown to be least")
