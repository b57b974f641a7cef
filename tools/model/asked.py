"""The stores of a random script: their numbers, and what was asked for in each."""
from dataclasses import dataclass

# the numbers of a script's stores
ONE_STORE = [[1], [1], [1], [2], [255], [256], [65_535]]
MORE_STORES = [[1, 2], [1, 2], [2, 1], [255, 256], [1, 65_535], [2, 1, 256], [3, 21]]
# what is no number of a store, or of one in which nothing was made
OTHER_STORES = [0, 65_536, 2**64 - 1, 65_534]


@dataclass
class Asked:
    """What was asked for in a store: the schema at first, the types and indexes, and the state that each may have."""

    schema: dict
    types: list
    indexes: list
    guesses: dict


def asked_first(schema):
    """What is asked for by a schema."""
    return Asked(schema, list(schema["types"]), list(schema["indexes"]),
                 {it["name"]: "readable" for it in schema["indexes"]})
