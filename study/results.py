"""The results of the study, as its plots and its page ask for them. It takes Python's standard library alone."""
import json
import pathlib

HERE = pathlib.Path(__file__).resolve().parent
FILE = HERE / "results/study.jsonl"

LOCKS = ["tas", "ttas_sw", "ttas_swap", "yield", "mark", "ticket", "mcs", "flag", "cas", "lrsc"]
WORKS = ["apart", "beside", "table", "readers", "counter", "accounts", "overflow"]
KINDS = ["counter:1", "bank:7", "buckets:3", "locks:3", "overflow:3", "pairs:1"]
MODES = ["plain", "sle", "tlr"]
HARTS = [1, 2, 4, 8]
ENDS = ["committed", "conflict", "room", "lines", "long", "call", "mixed"]

# What is looked up where nothing else is said.
USUAL = {"sets": 16, "ways": 4, "lines": 16, "long": 2000, "schedule": "round"}


class Results:
    def __init__(self, path=FILE):
        self.all = [json.loads(line) for line in path.read_text().splitlines()]
        self.by_words = {self.words(result): result for result in self.all}

    @staticmethod
    def words(run):
        """What a run is found by: all of its words but its steps."""
        return tuple(run[word] for word in ["image", "harts", "mode", *USUAL])

    def of(self, image, harts, mode, **others):
        """The result of an image, which is WORK-LOCK of GCC, clang/WORK-LOCK, gen:KIND:NUMBER or a path."""
        if image in [f"{work}-{lock}" for work in WORKS for lock in LOCKS]:
            image = f"gcc/{image}"
        if image.startswith(("gcc/", "clang/")):
            image = f"study/images/{image}.elf"
        return self.by_words[self.words({"image": image, "harts": harts, "mode": mode, **USUAL, **others})]

    def rounds(self, image, harts, mode, **others):
        """The rounds to the end, or None where it did not come."""
        return self.of(image, harts, mode, **others)["rounds"]

    def gain(self, image, harts, mode, **others):
        """By how much the rounds of the plain mode are more, or None where one of the two has no end."""
        plain, rounds = self.rounds(image, harts, "plain", **others), self.rounds(image, harts, mode, **others)
        return plain / rounds if plain and rounds else None

    def count(self, image, harts, mode, word, **others):
        """A number of the report, summed over the harts."""
        return self.of(image, harts, mode, **others)["counts"][word]

    def share(self, image, harts, mode, word, **others):
        """Of 100 sections that began, how many ended so."""
        began = self.count(image, harts, mode, "began", **others)
        return 100 * self.count(image, harts, mode, word, **others) / began if began else None
