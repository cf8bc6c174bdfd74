"""Compares the judge with two reasoners: Konclude, for description logics, and cvc5, for first-order logic with finite models.

What the judge proves they must find valid, and what it refutes they must find not valid. tests/outside/reasoners calls it.
"""

import argparse
import collections
import pathlib
import random
import re
import shutil
import subprocess
import sys
import tempfile
import time

import dossiers
import project
import translate

LONGEST = 60  # seconds that a reasoner has for one question


def judge(program, text):
    """The verdict's word for a text, or the whole line where it is a refusal."""
    line = subprocess.run([program], input=text.encode(), stdout=subprocess.PIPE, check=True).stdout.decode()
    if not re.fullmatch(r"(proved|refuted)\t0\t\d+\n|refused\t\d+\t\d+\n", line):
        raise SystemExit(f"outside: the judge printed {line!r}")
    word, number, at = line.split()
    return word if word != "refused" else f"refused {number} {at}"


def konclude(text, folder):
    """'fails' if the sequent can fail, 'holds' if not, or what went wrong."""
    path = folder / "question.ofn"
    path.write_text(translate.owl(text))
    try:
        run = subprocess.run(["Konclude", "consistency", "-w", "2", "-i", str(path)], stdout=subprocess.PIPE, stderr=subprocess.STDOUT,
                             timeout=LONGEST, check=False)
    except subprocess.TimeoutExpired:
        return "no answer in time"
    log = run.stdout.decode(errors="replace")
    if "{error}" in log or run.returncode != 0:
        return "error: " + next((line for line in log.splitlines() if "{error}" in line), f"status {run.returncode}")
    # Both words must not be looked for alone: "consistent" stands in "inconsistent".
    answer = re.findall(r"Ontology '.*' is (consistent|inconsistent)\.", log)
    if len(answer) != 1:
        return "error: no answer in the log"
    return "fails" if answer[0] == "consistent" else "holds"


def cvc5(text, folder):
    """'fails' if the sequent can fail, 'holds' if not, or what went wrong."""
    path = folder / "question.smt2"
    path.write_text(translate.smt(text))
    try:
        run = subprocess.run(["cvc5", "--finite-model-find", str(path)], stdout=subprocess.PIPE, stderr=subprocess.STDOUT,
                             timeout=LONGEST, check=False)
    except subprocess.TimeoutExpired:
        return "no answer in time"
    answer = run.stdout.decode(errors="replace").strip()
    if answer == "unknown":
        return "no answer: unknown"
    return {"sat": "fails", "unsat": "holds"}.get(answer, "error: " + answer[:200])


REASONERS = {"Konclude": konclude, "cvc5": cvc5}


def versions(folder):
    """What the reasoners call themselves. Konclude says it in every log, and does not end when it is asked for its help."""
    path = folder / "empty.ofn"
    path.write_text("Ontology()\n")
    for words in (["Konclude", "consistency", "-w", "2", "-i", str(path)], ["cvc5", "--version"]):
        told = subprocess.run(words, stdout=subprocess.PIPE, stderr=subprocess.STDOUT, timeout=LONGEST, check=False).stdout
        found = re.search(r"[vV]ersion v?([0-9][^ \n]*)", told.decode(errors="replace"))
        yield words[0] + " " + (found.group(1) if found else "of an unknown version")


KINDS = {
    "derivation": "derivations, proved",
    "damaged": "damaged derivations, proved all the same",
    "mistaken": "mistaken derivations, proved all the same",
    "model": "models, refuted",
    "world": "worlds for the claims of a derivation, refuted all the same",
}


class Comparison:
    """What is made, judged and asked, and what comes of it."""

    def __init__(self, judging, seed, keep):
        self.judging = judging
        self.rng = random.Random(seed)
        self.keep = keep
        self.bad = pathlib.Path(tempfile.gettempdir()) / f"outside-{seed}"
        self.wrong = 0
        self.total = 0
        self.questions = []  # kind, name, text, verdict
        self.seen = set()
        self.used = collections.Counter()
        self.refusals = collections.Counter()
        self.agreed = collections.Counter()
        self.silent = collections.Counter()
        self.seconds = collections.Counter()

    def complain(self, name, text, words):
        """Keeps a dossier on which somebody is wrong."""
        self.wrong += 1
        self.bad.mkdir(exist_ok=True)
        (self.bad / f"{name}.dossier").write_text(text)
        print(f"{words}; kept: {self.bad / name}.dossier", flush=True)

    def take(self, kind, name, rows, expected):
        """Judges a dossier; what passes becomes a question."""
        self.total += 1
        text = dossiers.text(rows)
        verdict = judge(self.judging, text)
        if self.keep:
            (self.keep / f"{name}.dossier").write_text(text)
        if expected and verdict != expected:
            self.complain(name, text, f"{name}: the rules say {expected}, the judge says {verdict}")
        if verdict.startswith("refused"):
            self.refusals[verdict.split()[1]] += 1
            return
        claims = text[: text.index("\nproof\n" if verdict == "proved" else "\nmodel\n")]
        if expected is None and (verdict, claims) in self.seen:
            return  # the same question again
        self.seen.add((verdict, claims))
        if verdict == "proved":
            self.used.update({row[0] for row in rows[rows.index(("proof",)):]} & set(dossiers.STEPS))
        self.questions.append((kind, name, text, verdict))

    def make(self, count, damaged):
        """Makes and judges so many derivations and models, and so many damaged, mistaken and refuting ones for each derivation."""
        for n in range(count):
            rows = dossiers.make_derivation(self.rng, dossiers.STEPS[n % len(dossiers.STEPS)])
            self.take("derivation", f"derivation-{n:04}", rows, "proved")
            for k in range(damaged):
                self.take("damaged", f"damaged-{n:04}-{k:02}", dossiers.damaged(rows, self.rng), None)
                mistake = dossiers.MISTAKES[k % len(dossiers.MISTAKES)]
                self.take("mistaken", f"mistaken-{n:04}-{k:02}-{mistake}", dossiers.make_mistaken(self.rng, mistake), None)
                self.take("world", f"world-{n:04}-{k:02}", dossiers.other_world(rows, self.rng), None)
            self.take("model", f"model-{n:04}", dossiers.make_model(self.rng), "refuted")

    def tell_made(self):
        """Prints what was made: the steps used and the refusals met."""
        print("files with each step: " + ", ".join(f"{word} {self.used[word]}" for word in dossiers.STEPS))
        print("refused, by number: " + ", ".join(f"{k}: {self.refusals[k]}" for k in sorted(self.refusals, key=int)))
        unused = [word for word in dossiers.STEPS if not self.used[word]]
        if unused:
            print("note: no derivation used " + ", ".join(unused))

    def ask(self):
        """Asks both reasoners every question."""
        with tempfile.TemporaryDirectory() as folder:
            for kind, name, text, verdict in self.questions:
                for reasoner in REASONERS:
                    self.ask_one(reasoner, pathlib.Path(folder), kind, name, text, verdict)

    def ask_one(self, reasoner, folder, kind, name, text, verdict):
        """Asks a reasoner one question, and compares its answer with the verdict."""
        before = time.monotonic()
        answer = REASONERS[reasoner](text, folder)
        self.seconds[reasoner] += time.monotonic() - before
        if answer == ("holds" if verdict == "proved" else "fails"):
            self.agreed[kind, reasoner] += 1
        elif answer.startswith("no answer"):
            self.silent[kind, reasoner] += 1
            print(f"{name}: {reasoner} gives {answer}", flush=True)
        else:
            self.complain(name, text, f"{name}: the judge says {verdict}, {reasoner} says {answer}")

    def tell_answers(self):
        """Prints the table of docs/OUTSIDE.md."""
        print("\n| dossiers | number | " + " | ".join(f"{r} agrees | {r} gives no answer" for r in REASONERS) + " |")
        print("|---|---|" + "---|---|" * len(REASONERS))
        for kind, words in KINDS.items():
            number = sum(1 for question in self.questions if question[0] == kind)
            print(f"| {words} | {number} | " + " | ".join(f"{self.agreed[kind, r]} | {self.silent[kind, r]}" for r in REASONERS) + " |")

    def fails(self):
        """Whether the run shows nothing or shows a mistake; prints why."""
        reasons = []
        if self.wrong:
            reasons.append(f"{self.wrong} disagreements or errors")
        if self.silent:
            reasons.append(f"{self.silent.total()} questions without an answer")
        if not self.questions:
            reasons.append("no question was asked")
        if reasons:
            print("failed: " + ", ".join(reasons))
        return bool(reasons)


def arguments():
    parser = argparse.ArgumentParser(prog="tests/outside/reasoners", description=__doc__.splitlines()[0])
    parser.add_argument("--judge", help="the judging program (default: the project's, made anew where a source is newer)")
    parser.add_argument("--seed", type=int, help="a number that fixes what is made; a new one is taken and printed if there is none")
    parser.add_argument("--count", type=int, default=200, help="how many derivations, and how many models (default: %(default)s)")
    parser.add_argument("--damaged", type=int, default=10, help="for each derivation so many damaged copies, so many others with a "
                        "mistake in them, and so many worlds for its claims (default: %(default)s)")
    parser.add_argument("--keep", type=pathlib.Path, help="a folder for every dossier made, for a closer look")
    return parser.parse_args()


def main():
    given = arguments()
    seed = given.seed if given.seed is not None else random.SystemRandom().randrange(10**6)
    comparison = Comparison(given.judge or project.judge(), seed, given.keep)
    with tempfile.TemporaryDirectory() as folder:
        print(f"seed {seed}; " + ", ".join(versions(pathlib.Path(folder))), flush=True)
    if given.keep:
        given.keep.mkdir(parents=True, exist_ok=True)
    started = time.monotonic()
    comparison.make(given.count, given.damaged)
    print(f"{comparison.total} dossiers made and judged in {time.monotonic() - started:.1f} s; {comparison.refusals.total()} refused")
    comparison.tell_made()
    comparison.ask()
    comparison.tell_answers()
    print("\nseconds: " + ", ".join(f"{r} {comparison.seconds[r]:.1f}" for r in REASONERS) + f"; in all {time.monotonic() - started:.1f}")
    return 1 if comparison.fails() else 0


if __name__ == "__main__":
    if not all(shutil.which(program) for program in REASONERS):
        raise SystemExit("outside: Konclude and cvc5 are needed: tests/outside/reasoners installs them")
    sys.exit(main())
