"""What `jobs` does, in a few lines of Python, and how the tests run it."""
import copy
import os
import random
import subprocess

FILES = ("", "-wal")


class Agenda:
    """Jobs by deadline. A job that is moved or claimed goes behind those with its new deadline."""

    def __init__(self):
        self.jobs, self.next, self.turn = {}, 1, 0

    def answer(self, line):
        """Obeys a line, and returns the lines of its answer."""
        word, *words = line.split(maxsplit=2 if line.startswith("at ") else -1)
        if word == "at":
            number, self.next = self.next, self.next + 1
            self.put(number, int(words[0]), words[1])
            return [str(number)]
        if word in ("cancel", "done"):
            return ["done"] if self.jobs.pop(int(words[0]), None) else [None]
        if word == "move":
            number = int(words[0])
            if number not in self.jobs:
                return [None]
            self.put(number, int(words[1]), self.jobs[number][2])
            return ["done"]
        if word == "due":
            due = [self.shown(number) for number in self.order() if self.jobs[number][0] <= int(words[0])]
            self.jobs = {number: job for number, job in self.jobs.items() if job[0] > int(words[0])}
            return due or ["no job"]
        if word == "claim":
            for number in self.order()[:1]:
                if self.jobs[number][0] <= int(words[0]):
                    self.put(number, int(words[1]), self.jobs[number][2])
                    return [self.shown(number)]
            return ["no job"]
        if word == "next":
            return [str(self.jobs[self.order()[0]][0]) if self.jobs else "no job"]
        if word == "list":
            return self.listed()
        return ["done"]

    def put(self, number, deadline, payload):
        self.turn += 1
        self.jobs[number] = (deadline, self.turn, payload)

    def order(self):
        return sorted(self.jobs, key=lambda number: self.jobs[number][:2])

    def shown(self, number):
        return f"{number} {self.jobs[number][0]} {self.jobs[number][2]}"

    def listed(self):
        return [self.shown(number) for number in self.order()] or ["no job"]

    def answers(self, lines, first):
        """The answers to lines, the first of which has this number among all."""
        told = []
        for at, line in enumerate(lines):
            told += [f"line {first + at}: no such job" if text is None else text for text in self.answer(line)]
        return told

    def after(self, lines):
        other = copy.copy(self)
        other.jobs = dict(self.jobs)
        other.answers(lines, 1)
        return other

    def facts(self):
        """All that can be seen of it."""
        return (self.next, *self.listed())


def random_line(rng, agenda, long=40):
    """A line of any kind, mostly about jobs that are there."""
    number = rng.choice(list(agenda.jobs) or [1]) if rng.random() < 0.9 else rng.randrange(1, agenda.next + 1)
    date = rng.randrange(1000)
    lines = (
        (8, f"at {date} job {'x' * rng.randrange(long)}y {rng.randrange(100)}"),
        (2, f"cancel {number}"),
        (2, f"done {number}"),
        (3, f"move {number} {date}"),
        (1, f"due {date // 8}"),
        (3, f"claim {date} {date + rng.randrange(500)}"),
        (1, "next"),
        (0.3, "list"),
        (0.5, "compact"),
    )
    return rng.choices([line for _, line in lines], [weight for weight, _ in lines])[0]


def run(program, arguments, lines=(), **options):
    """Answers, what was said on standard error, and the exit status."""
    text = "".join(line + "\n" for line in lines)
    ran = subprocess.run([program, *arguments], input=text, capture_output=True, text=True, **options)
    return ran.stdout.splitlines(), ran.stderr.strip(), ran.returncode


def bytes_of(path):
    """The bytes of a file and of its log, None for one that is missing."""
    found = []
    for end in FILES:
        try:
            with open(path + end, "rb") as file:
                found.append(file.read())
        except FileNotFoundError:
            found.append(None)
    return found


def write_files(path, contents):
    for end, content in zip(FILES, contents):
        if content is not None:
            with open(path + end, "wb") as file:
                file.write(content)
        elif os.path.exists(path + end):
            os.remove(path + end)
