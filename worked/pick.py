"""Picks scripts with known answers by a seed: pick.py CORPUS.jsonl COUNT SEED

Each line of the corpus is an object with name, words, script, status and output. Scripts that replay is not run on, and those that are too long
to compute (more than 300 steps, or a text of more than 8,000 bytes), are passed over.
"""
import json
import random
import re
import sys

STEPS = 300
BYTES = 8000


def steps(output):
    line = re.search(r"^schedule(.*)$", output, re.M)
    return sum(int(item.rsplit("*", 1)[1]) for item in line.group(1).split())


def is_short(case):
    return len(case["output"]) <= BYTES and len(case["script"]) <= BYTES and (case["status"] == 3 or steps(case["output"]) <= STEPS)


def picked(path, count, seed):
    with open(path, encoding="utf-8") as corpus:
        cases = [json.loads(line) for line in corpus]
    cases = [case for case in cases if case["words"][0] == "replay" and case["status"] in (0, 3) and is_short(case)]
    random.Random(seed).shuffle(cases)
    return cases[:count]


def main():
    path, count, seed = sys.argv[1], int(sys.argv[2]), int(sys.argv[3])
    cases = []
    for case in picked(path, count, seed):
        word = "case_" + re.sub(r"[^a-z0-9]+", "_", case["name"].lower()).strip("_")
        cases.append({"id": word, "name": case["name"], "script": case["script"], "output": case["output"]})
    json.dump(cases, sys.stdout)


if __name__ == "__main__":
    main()
