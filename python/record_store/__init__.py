"""A record store above a database of yours: typed records, indexes and totals, in transactions.

    from record_store import Database, RecordType, Schema, field, sum_index, value_index
    from record_store.engines.sqlite import Sqlite

    books = Schema([RecordType("book", {"title": str, "author": str, "copies": int}, key="title")],
                   [value_index("by_author", "book", "author"),
                    sum_index("copies_of", "book", "author", summed="copies")])
    db = Database(Sqlite("books.db"), books)
    db.transact(lambda tx: tx.save("book", {"title": "Emma", "author": "Austen", "copies": 3}))
    print(db.transact(lambda tx: list(tx.query("book", field("author") == "Austen"))))

What commands reply and write is decided by the record layer, a function of C; reads and commits are the engine's.
"""
from .database import Database
from .errors import BadCommand, Closed, Conflict, Corrupt, OtherStore, OutOfMemory, RecordError, Refused
from .errors import TooLarge, TooOld, Unavailable, Unknown
from .filters import Field, Filter, field
from .schema import Index, RecordType, Schema, count_index, sum_index, value_index
from .transaction import Built, Transaction

__all__ = [
    "BadCommand", "Built", "Closed", "Conflict", "Corrupt", "Database", "Field", "Filter", "Index", "OtherStore",
    "OutOfMemory", "RecordError", "RecordType", "Refused", "Schema", "TooLarge", "TooOld", "Transaction",
    "Unavailable", "Unknown", "count_index", "field", "sum_index", "value_index",
]
