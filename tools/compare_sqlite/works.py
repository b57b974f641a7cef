"""The works over which the programs are compared, as words of tools/benchmark_script.py."""
from dataclasses import dataclass

# the most bytes of a script
SCRIPT_BYTES = 4_000_000
QUERIES, WHOLE_QUERIES = 5_000, 10

SAVES = "saves under one index in transactions of"
BY_500 = "--records 500 --clients 1 --saves {size}"
BY_10 = "--records 10 --saves {size} --indexes 1"
BY_5000 = "--records 5000 --clients 1 --saves {size} --numbers --loaded"


@dataclass(frozen=True)
class Work:
    """A work: the words that prepare it, those that are added for what is measured, and the quotients that are wanted.

    Where none are added, what would prepare it is measured. `{size}` is the size, `{tenth}` a tenth of it. One quotient
    is that beside the shell of SQLite, the other that beside SQLite in C, or nothing where none is wanted.
    """

    title: str
    prepared: str
    added: str
    goals: tuple
    count: str = "{size:,}"
    is_memory: bool = False

    def scripts(self, size):
        """The words of the whole work of this size, and those of what only prepares it, where there is such."""
        whole, prepared = filled(f"{self.prepared} {self.added}", size), filled(self.prepared, size)
        return [whole, prepared] if self.added else [whole]

    def words_compared(self, size):
        """The words of the work as its rows are compared: in the end all records are asked for."""
        whole = self.scripts(size)[0]
        return whole if "--whole" in whole else f"{whole} --whole 1"

    def size_told(self, size):
        """The size as a table has it."""
        return filled(self.count, size)


def filled(form, size):
    """A form with the size put in."""
    return form.format(size=size, tenth=max(1, size // 10)).strip()


WORKS = {
    "saves": Work(f"{SAVES} 500", f"{BY_500} --indexes 1", "", ("0.45", "1.2")),
    "short": Work(f"{SAVES} 10", f"{BY_10} --clients 1", "", ("0.45", "1.2")),
    "turns": Work(f"{SAVES} 10, by 16 clients in turn", f"{BY_10} --clients 16", "", ("0.45", "1.2")),
    "together": Work(f"{SAVES} 10, 16 open together", f"{BY_10} --clients 16 --together", "", ("0.45", "1.2")),
    "loads": Work("loads in transactions of 500", f"{BY_500} --numbers", "--loads {size}", ("0.2", "1.3")),
    "writes": Work("saves with a load after each, in transactions of 5,000", BY_5000, "", ("0.3", "")),
    "queries": Work("queries of 10 rows along an index", f"{BY_500} --numbers --indexes 1 --values {{tenth}}",
                    f"--queries {QUERIES}", ("0.6, 0.8 at 64,000", "1.2"), f"{QUERIES:,} over {{size:,}}"),
    "whole": Work("queries of the whole type", f"{BY_500} --numbers --indexes 1", f"--whole {WHOLE_QUERIES}",
                  ("0.45", "1.2"), f"{WHOLE_QUERIES} over {{size:,}}"),
    "memory": Work(f"peak of memory of {SAVES} 500", f"{BY_500} --indexes 1", "", ("60 MB at 64,000", ""),
                   is_memory=True),
}
