"""Replicas of a store on several machines, over one log of lines that PostgreSQL keeps.

    >>> from sfstore.replica import Replica
    >>> with Replica("town", "host=alpha,beta dbname=town") as replica:  # doctest: +SKIP
    ...     replica.run("add wells POINT (3 4)")
    'ok 1'

docs/use/REPLICAS.md of the project says what is promised, and by whom. It needs psycopg2.
"""

from sfstore.replica.links import LogRefused
from sfstore.replica.log import LogUnreachable
from sfstore.replica.replica import AnswerGone, NotAcknowledged, Outcome, Replica, ReplicaStopped

__all__ = [
    "AnswerGone",
    "LogRefused",
    "LogUnreachable",
    "NotAcknowledged",
    "Outcome",
    "Replica",
    "ReplicaStopped",
]
