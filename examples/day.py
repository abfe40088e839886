#!/usr/bin/env python3
"""The afternoon of a cadastre's clerk, from Python.

    day.py FROM TO

loads the town of the file FROM, gives the parcels along First Street to the town where nobody owns them, adds
a well on the parcel of one of its neighbours, undoes what was one too many, and saves the town to the file TO.
"""

from __future__ import annotations

import sys

from sfstore import Refused, Store

FIRST_STREET = "POLYGON ((-60 560, 5100 560, 5100 760, -60 760, -60 560))"


def give_to_town(store: Store) -> int:
    """Gives the parcels along the street that have no owner to the town, and says how many they were."""
    along = set(store.query("parcels", "intersects", FIRST_STREET))
    free = [parcel.id for parcel in store.show("parcels") if parcel.id in along and "owner" not in parcel.values]
    for parcel in free:
        store.set("parcels", parcel, "owner", "Town")
    return len(free)


def parcel_at(store: Store, x: int, y: int) -> int:
    """The parcel that has a place inside."""
    [parcel] = store.query("parcels", "contains", f"POINT ({x} {y})")
    return parcel


def main() -> None:
    source, target = sys.argv[1:]
    with Store(load=source, save=target) as store:
        print(f"{give_to_town(store)} parcels along First Street went to the town")
        well = store.add("wells", "POINT (2300 450)")
        store.set("wells", well, "depth", 17)
        print(f"well {well} stands on parcel {parcel_at(store, 2300, 450)}")
        store.delete("wells", 1)
        store.undo()
        print(f"{len(store.show('wells'))} wells are left")
        try:
            store.add("parcels", "POLYGON ((0 0, 10 10, 10 0, 0 10, 0 0))")
        except Refused as refused:
            print(f"no parcel: {refused.name}")


if __name__ == "__main__":
    main()
