"""The table of a comparison, which is printed row by row."""
import math
import sys
from rows import compare
from runs import Fault

# the most records of a work whose instructions are counted
INSTRUCTED = 16_000


def time_told(seconds):
    if seconds <= 0:
        return "within noise"
    return f"{seconds:.2f} s" if seconds >= 0.1 else f"{seconds * 1000:.1f} ms"


def memory_told(count):
    return f"{count / 1e6:.0f} MB"


def instructions_told(count):
    return f"{count / 1e6:,.0f} million"


def quotient_told(one, other):
    return f"{one / other:.2f}" if one > 0 and other > 0 else ""


def growth_told(size, figure, small_size, small_figure):
    """The exponent with which a figure grows from that of a smaller size, or nothing."""
    if figure <= 0 or small_figure <= 0 or size == small_size:
        return ""
    return f"n^{math.log(figure / small_figure) / math.log(size / small_size):.2f}"


def print_row(cells):
    print("|", " | ".join(cells), "|", flush=True)


class Table:
    """What is printed of programs: growth from this size, and instructions where they are asked for."""

    def __init__(self, programs, beginning, is_instructed):
        self.programs, self.beginning, self.is_instructed = programs, beginning, is_instructed
        self.faults = 0

    def titles(self):
        """The titles of the columns."""
        beside = [it for other in self.programs.others for it in (other.title, "Quotient", "Goal")]
        return ["Work", "Size", self.programs.store.title, *beside, f"Growth from {self.beginning:,}"]

    def instruction_titles(self):
        """The titles of the columns on instructions, if they are asked for."""
        beside = [it for other in self.programs.others for it in (other.title, "Quotient")]
        return ["Instructions", *beside, f"Growth from {self.beginning:,}"] if self.is_instructed else []

    def print_head(self):
        titles = self.titles() + self.instruction_titles()
        print_row(titles)
        print_row("---" for _ in titles)

    def print_work(self, work, sizes):
        """The rows of a work, one for each size. What goes wrong is told in place of them."""
        try:
            small = self.figures(work, self.beginning)
            for size in sizes:
                print_row(self.row(work, size, small))
        except Fault as fault:
            self.faults += 1
            print(f"{work.title}: {fault}", file=sys.stderr, flush=True)

    def figures(self, work, size):
        """What a work of this size takes, once its rows were compared, and its instructions, or None."""
        compare(self.programs, work.words_compared(size))
        is_counted = self.is_instructed and not work.is_memory and size <= INSTRUCTED
        return self.programs.spent(work, size), self.programs.instructions(work, size) if is_counted else None

    def row(self, work, wanted, small):
        """The cells of a row."""
        size = self.programs.fitting(work, wanted)
        spent, counts = self.figures(work, size)
        told = memory_told if work.is_memory else time_told
        size_told = work.size_told(size) + (f", in place of {wanted:,}" if size < wanted else "")
        cells = [work.title, size_told, told(spent[0])]
        for program, other in zip(self.programs.others, spent[1:]):
            cells += [told(other), quotient_told(spent[0], other), work.goals[program.place]]
        cells.append(growth_told(size, spent[0], self.beginning, small[0][0]))
        return cells + (self.instruction_cells(size, counts, small[1]) if self.is_instructed else [])

    def instruction_cells(self, size, counts, small_counts):
        """The cells of a row on instructions, which are empty where none were counted."""
        if not counts:
            return [""] * len(self.instruction_titles())
        cells = [instructions_told(counts[0])]
        for other in counts[1:]:
            cells += [instructions_told(other), quotient_told(counts[0], other)]
        growth = growth_told(size, counts[0], self.beginning, small_counts[0]) if small_counts else ""
        return [*cells, growth]
