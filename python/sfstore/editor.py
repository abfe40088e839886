"""The commands of one of the editors of a store, as calls."""

from __future__ import annotations

from collections.abc import Callable, Iterable, Iterator, Sequence
from decimal import Decimal
from fractions import Fraction
from typing import cast

from sfstore import edits, spelling, values
from sfstore.group import Group
from sfstore.language import QUESTIONS, words_of_line
from sfstore.program import Link, batches
from sfstore.results import Answer, Column, ColumnType, Distance, Feature, Kind, Layer, Near, Predicate, Refused, Value
from sfstore.rows import feature_of
from sfstore.rules import AnyRule, Demand, Rule, RuleForm, ValueRule, range_words, rule_of

__all__ = ["Editor"]


def _word(feature_id: int) -> str:
    """The word for a feature."""
    return str(spelling.identifier(feature_id))


def _pair_of(row: str) -> tuple[int, int]:
    """The pair of identifiers of a row."""
    first, second = row.split(" ")
    return int(first), int(second)


def column_of(row: str) -> Column:
    """The column of a row."""
    name, column_type = row.split(" ")
    return Column(name, cast(ColumnType, column_type))


class Editor:
    """One of the editors of a store, each known by a number, and its commands.

    All editors see one content, and edit it in turn. An editor undoes and redoes its own edits
    alone: if the one in turn is another's, it is refused as 36 NotYours. After an accepted edit of
    any of them nobody has anything to redo.

    `Store.editor` gives an editor. A `Store` is itself the editor of number 0.

    >>> with Store() as store:
    ...     ann, ben = store.editor(1), store.editor(2)
    ...     ann.add_layer("wells", "point")
    ...     ben.add("wells", "POINT (3 4)")
    ...     try:
    ...         ann.undo()
    ...     except Refused as refused:
    ...         refused.name
    ...     ben.undo()
    ...     ann.show("wells")
    1
    'NotYours'
    []
    """

    def __init__(self, program: Link, address: str, look: Callable[[str], object] | None = None) -> None:
        self._program = program
        # What stands before each line.
        self._address = address
        # What hears of each line before it is sent.
        self._look = look

    def run(self, line: str) -> Answer:
        """The answer of a command line: its one line, or the rows behind ``rows N`` as a list.

        `Refused` if it is refused. `ValueError` for a line with a line feed, which would be
        several, for a blank one, and for the first line of a group, which have no answer. A whole group
        with carriage returns between its lines is a line, however long.

        >>> with Store() as store:
        ...     store.run("layer add wells point")
        ...     store.run("add wells POINT (3 4)")
        ...     store.run("show wells")
        'ok'
        'ok 1'
        ['1 POINT (3 4)']
        """
        [outcome] = self._program.exchange([self._encoded(line)])
        if isinstance(outcome, Refused):
            raise outcome
        return outcome

    def run_all(
        self,
        lines: Iterable[str],
        progress: Callable[[int, int], object] | None = None,
    ) -> list[Answer | Refused]:
        """The answers of many command lines in their order, faster than one by one.

        If a line is refused, its `Refused` stands among the answers, and the lines behind it are
        carried out nevertheless. All lines are checked before the first is sent: after
        a `ValueError` none was carried out. ``progress`` is called after each batch with the number
        of lines that are answered, and that of all lines.

        With a journal the accepted edits are on the disk before the answers are given, and before
        each call of ``progress``; they are synced together, some thousands at a time.

        >>> with Store() as store:
        ...     store.run_all(["layer add wells point", "add wells POINT (3 4)", "redo"])
        ['ok', 'ok 1', Refused(30, 'NothingToRedo', 'redo')]
        """
        encoded = self._all_encoded(list(lines))
        if progress is None:
            return self._program.exchange(encoded)
        outcomes: list[Answer | Refused] = []
        for batch in batches(encoded):
            outcomes += self._program.exchange(batch)
            progress(len(outcomes), len(encoded))
        return outcomes

    def add_layer(self, name: str, kind: Kind = "any") -> None:
        """Adds a layer, the last one in drawing order.

        >>> with Store() as store:
        ...     store.add_layer("roads", "linestring")
        """
        self.run(f"layer add {spelling.name(name)} {spelling.one_of(Kind, kind)}")

    def drop_layer(self, name: str) -> None:
        """Removes a layer, with all that it has.

        >>> with Store() as store:
        ...     store.add_layer("roads")
        ...     store.drop_layer("roads")
        ...     store.layers()
        []
        """
        self.run(f"layer drop {spelling.name(name)}")

    def rename_layer(self, old: str, new: str) -> None:
        """Gives a layer another name.

        >>> with Store() as store:
        ...     store.add_layer("roads")
        ...     store.rename_layer("roads", "streets")
        ...     store.layers()
        [Layer(name='streets', kind='any')]
        """
        self.run(f"layer rename {spelling.name(old)} {spelling.name(new)}")

    def move_layer(self, name: str, place: int) -> None:
        """Moves a layer to a place in the drawing order, counted from 0.

        >>> with Store() as store:
        ...     store.add_layer("roads")
        ...     store.add_layer("wells")
        ...     store.move_layer("wells", 0)
        ...     [layer.name for layer in store.layers()]
        ['wells', 'roads']
        """
        self.run(f"layer move {spelling.name(name)} {spelling.identifier(place)}")

    def layers(self) -> list[Layer]:
        """The layers, in drawing order.

        >>> with Store() as store:
        ...     store.layers()
        []
        """
        rows = (row.split(" ") for row in self._rows("layers"))
        return [Layer(name, cast(Kind, kind)) for name, kind in rows]

    def add_column(self, layer: str, name: str, column_type: ColumnType) -> None:
        """Adds a column behind the others of a layer. No feature has a value in it yet.

        >>> with Store() as store:
        ...     store.add_layer("wells")
        ...     store.add_column("wells", "depth", "int")
        """
        self.run(f"column add {spelling.name(layer)} {spelling.name(name)} {spelling.one_of(ColumnType, column_type)}")

    def drop_column(self, layer: str, name: str) -> None:
        """Removes a column of a layer, with its values.

        >>> with Store() as store:
        ...     store.add_layer("wells")
        ...     store.add_column("wells", "depth", "int")
        ...     store.drop_column("wells", "depth")
        ...     store.columns("wells")
        []
        """
        self.run(f"column drop {spelling.name(layer)} {spelling.name(name)}")

    def columns(self, layer: str) -> list[Column]:
        """The columns of a layer, in their order.

        >>> with Store() as store:
        ...     store.add_layer("wells")
        ...     store.add_column("wells", "depth", "int")
        ...     store.columns("wells")
        [Column(name='depth', type='int')]
        """
        return [column_of(row) for row in self._rows(f"columns {spelling.name(layer)}")]

    def add(self, layer: str, geometry: str | bytes) -> int:
        """Adds a feature to a layer, and gives its identifier.

        The geometry is a well-known text, or the bytes of a well-known binary.

        >>> with Store() as store:
        ...     store.add_layer("roads")
        ...     store.add("roads", "LINESTRING (0 0, 5 5)")
        ...     store.add("roads", bytes.fromhex("0101000000000000000000f03f0000000000000040"))
        1
        2
        """
        return int(self._line(edits.add(layer, geometry)).split(" ")[1])

    def check(self, layer: str, wkt: str) -> Refused | None:
        """What adding a geometry to a layer would bring, without adding it. Rules between features are not looked at.

        None where it would be added. Else the refusal, and for a geometry that is not valid its
        `Refused.places` say where: the first place in the order of docs/use/CONSOLE.md.

        >>> with Store() as store:
        ...     store.add_layer("parcels")
        ...     refused = store.check("parcels", "POLYGON ((0 0, 4 4, 4 0, 0 4, 0 0))")
        ...     refused.name, refused.places
        ('RingNotSimple', [Place(part=0, ring=0, edges=(0, 2))])
        """
        outcome = self.run_all([f"check {spelling.name(layer)} {spelling.geometry(wkt)}"])[0]
        return outcome if isinstance(outcome, Refused) else None

    def delete(self, layer: str, feature_id: int) -> None:
        """Removes a feature from its layer.

        >>> with Store() as store:
        ...     store.add_layer("wells")
        ...     store.delete("wells", store.add("wells", "POINT (3 4)"))
        ...     store.show("wells")
        []
        """
        self.run(edits.delete(layer, _word(feature_id)))

    def replace(self, layer: str, feature_id: int, wkt: str) -> None:
        """Gives a feature another geometry. It keeps its values.

        >>> with Store() as store:
        ...     store.add_layer("wells")
        ...     store.replace("wells", store.add("wells", "POINT (3 4)"), "POINT (5 6)")
        ...     store.show("wells")
        [Feature(id=1, wkt='POINT (5 6)', values={})]
        """
        self.run(edits.replace(layer, _word(feature_id), wkt))

    def vertex_insert(
        self, layer: str, feature_id: int, part: int, ring: int, index: int, x: int, y: int
    ) -> None:
        """Inserts a vertex before the one of an index, or behind the last.

        ``part`` is the element of a MultiLineString or MultiPolygon, ``ring`` the ring of
        a polygon, 0 the shell; both are 0 elsewhere. ``index`` counts vertices from 0,
        the point that closes a ring not among them.

        >>> with Store() as store:
        ...     store.add_layer("roads")
        ...     store.add("roads", "LINESTRING (0 0, 5 5)")
        ...     store.vertex_insert("roads", 1, part=0, ring=0, index=1, x=3, y=0)
        ...     store.show("roads")[0].wkt
        1
        'LINESTRING (0 0, 3 0, 5 5)'
        """
        self.run(edits.vertex_insert(layer, _word(feature_id), part, ring, index, x, y))

    def vertex_move(
        self, layer: str, feature_id: int, part: int, ring: int, index: int, x: int, y: int
    ) -> None:
        """Moves a vertex, named as for `vertex_insert`.

        >>> with Store() as store:
        ...     store.add_layer("roads")
        ...     store.add("roads", "LINESTRING (0 0, 5 5)")
        ...     store.vertex_move("roads", 1, part=0, ring=0, index=1, x=3, y=0)
        ...     store.show("roads")[0].wkt
        1
        'LINESTRING (0 0, 3 0)'
        """
        self.run(edits.vertex_move(layer, _word(feature_id), part, ring, index, x, y))

    def vertex_remove(self, layer: str, feature_id: int, part: int, ring: int, index: int) -> None:
        """Removes a vertex, named as for `vertex_insert`.

        >>> with Store() as store:
        ...     store.add_layer("roads")
        ...     store.add("roads", "LINESTRING (0 0, 3 0, 5 5)")
        ...     store.vertex_remove("roads", 1, part=0, ring=0, index=1)
        ...     store.show("roads")[0].wkt
        1
        'LINESTRING (0 0, 5 5)'
        """
        self.run(edits.vertex_remove(layer, _word(feature_id), part, ring, index))

    def set(self, layer: str, feature_id: int, column: str, value: Value) -> None:
        """Sets the value of a feature in a column.

        `ValueError` for a value that the column would change, such as a time without a zone; `Value` says which.

        >>> with Store() as store:
        ...     store.add_layer("wells")
        ...     store.add_column("wells", "label", "text")
        ...     store.set("wells", store.add("wells", "POINT (3 4)"), "label", "it's old")
        ...     store.show("wells")[0].values
        {'label': "it's old"}

        >>> from datetime import date
        >>> from decimal import Decimal
        >>> with Store() as store:
        ...     store.add_layer("parcels")
        ...     store.add_column("parcels", "area", "decimal")
        ...     store.add_column("parcels", "entered", "date")
        ...     store.set("parcels", store.add("parcels", "POINT (3 4)"), "area", Decimal("812.50"))
        ...     store.set("parcels", 1, "entered", date(2024, 2, 29))
        ...     store.show("parcels")[0].values
        {'area': Decimal('812.5'), 'entered': datetime.date(2024, 2, 29)}
        """
        self.run(edits.set_value(layer, _word(feature_id), column, value))

    def unset(self, layer: str, feature_id: int, column: str) -> None:
        """Clears the value of a feature in a column, if there is one.

        >>> with Store() as store:
        ...     store.add_layer("wells")
        ...     store.add_column("wells", "depth", "int")
        ...     store.unset("wells", store.add("wells", "POINT (3 4)"), "depth")
        """
        self.run(edits.unset(layer, _word(feature_id), column))

    def together(self) -> Group:
        """Several edits of features as one step: all of them are carried out, or none.

        The edits are calls of what the ``with`` gives, and are sent at its end. Until then this store, and
        each editor of it, answers questions alone: edits and other groups raise `RuntimeError`.

        >>> with Store() as store:
        ...     store.add_layer("parcels", "polygon")
        ...     store.add_column("parcels", "owner", "text")
        ...     store.add("parcels", "POLYGON ((0 0, 20 0, 20 10, 0 10, 0 0))")
        ...     with store.together() as group:
        ...         for owner, left, right in ("Ada", 0, 10), ("Ben", 10, 20):
        ...             part = f"POLYGON (({left} 0, {right} 0, {right} 10, {left} 10, {left} 0))"
        ...             group.set("parcels", group.add("parcels", part), "owner", owner)
        ...         group.delete("parcels", 1)
        ...     group.ids
        ...     store.undo()
        ...     len(store.show("parcels"))
        1
        [2, 3]
        1
        """
        return Group(self._program, self._address, self._look)

    def show(self, layer: str) -> list[Feature]:
        """The features of a layer, by rising identifier.

        >>> with Store() as store:
        ...     store.add_layer("wells")
        ...     store.add("wells", "POINT (3 4)")
        ...     store.show("wells")
        1
        [Feature(id=1, wkt='POINT (3 4)', values={})]
        """
        return self._features(layer, "show", "")

    def get(self, layer: str, *feature_ids: int) -> list[Feature]:
        """The features of these identifiers, one to 1,000 of them, in the order asked.

        An identifier that is asked for again has its feature again. If one is of no feature,
        this is refused as 21 NoFeature. It costs what it gives, and not what the layer has.

        >>> with Store() as store:
        ...     store.add_layer("wells")
        ...     store.add("wells", "POINT (3 4)")
        ...     store.add("wells", "POINT (5 6)")
        ...     store.get("wells", 2)
        1
        2
        [Feature(id=2, wkt='POINT (5 6)', values={})]
        """
        return self._features(layer, "get", f" {spelling.identifiers(feature_ids)}")

    def find(self, layer: str, column: str, value: Value | None = None) -> list[int]:
        """The features with a value in a column, or without ``value`` those with any there.

        They are given by their identifiers, rising.

        >>> with Store() as store:
        ...     store.add_layer("wells")
        ...     store.add_column("wells", "label", "text")
        ...     store.set("wells", store.add("wells", "POINT (3 4)"), "label", "it's old")
        ...     store.find("wells", "label", "it's old")
        ...     store.find("wells", "label", "new")
        ...     store.find("wells", "label")
        [1]
        []
        [1]
        """
        wanted = "" if value is None else f" {values.spelled(value)}"
        rows = self._rows(f"find {spelling.name(layer)} {spelling.name(column)}{wanted}")
        return list(map(int, rows))

    def find_between(self, layer: str, column: str, least: Value | None = None, greatest: Value | None = None) -> list[int]:
        """The features with a value in a column that lies between two ends, or at one of them; one end may be left out.

        They are given by their identifiers, rising.

        >>> from datetime import date
        >>> with Store() as store:
        ...     store.add_layer("wells")
        ...     store.add_column("wells", "drilled", "date")
        ...     for year in 1987, 2024, 2026:
        ...         store.set("wells", store.add("wells", "POINT (3 4)"), "drilled", date(year, 5, 1))
        ...     store.find_between("wells", "drilled", date(1990, 1, 1), date(2024, 12, 31))
        ...     store.find_between("wells", "drilled", least=date(2024, 5, 1))
        [2]
        [2, 3]
        """
        if least is None and greatest is None:
            raise ValueError("one of the ends is wanted, or both")
        words = ["find", spelling.name(layer), spelling.name(column), *range_words(least, greatest)]
        return [int(row) for row in self._rows(" ".join(words))]

    def hex(self, layer: str, feature_id: int) -> str:
        """The geometry of a feature as well-known binary, in hexadecimal.

        ``bytes.fromhex`` makes bytes of it, and `add` takes these.

        >>> with Store() as store:
        ...     store.add_layer("wells")
        ...     store.hex("wells", store.add("wells", "POINT (1 2)"))
        '0101000000000000000000f03f0000000000000040'
        """
        return self._line(f"hex {spelling.name(layer)} {spelling.identifier(feature_id)}")

    def box(self, layer: str, feature_id: int) -> tuple[int, int, int, int]:
        """The least box that has the whole geometry of a feature: least x and y, greatest x and y.

        >>> with Store() as store:
        ...     store.add_layer("roads")
        ...     store.box("roads", store.add("roads", "LINESTRING (0 0, 5 7, 10 -3)"))
        (0, -3, 10, 7)
        """
        answer = self._line(f"box {spelling.name(layer)} {spelling.identifier(feature_id)}")
        min_x, min_y, max_x, max_y = map(int, answer.split(" "))
        return min_x, min_y, max_x, max_y

    def simple(self, layer: str, feature_id: int) -> bool:
        """Whether the geometry of a feature is simple: it passes through no point twice.

        >>> with Store() as store:
        ...     store.add_layer("roads")
        ...     store.simple("roads", store.add("roads", "LINESTRING (0 0, 4 4, 4 0, 0 4)"))
        False
        """
        return self._line(f"simple {spelling.name(layer)} {spelling.identifier(feature_id)}") == "true"

    def area(self, layer: str, *feature_ids: int) -> list[Decimal]:
        """The areas of features, one to 1,000 of them, in squared grid steps: exact, in the order asked.

        Of polygons it is that of the shells less that of the holes, a whole number or one with
        .5; of points and lines it is 0. If an identifier is of no feature, this is refused as
        21 NoFeature.

        >>> with Store() as store:
        ...     store.add_layer("parcels")
        ...     store.area("parcels", store.add("parcels", "POLYGON ((0 0, 5 0, 0 7, 0 0))"))
        [Decimal('17.5')]
        """
        return self._measures("area", layer, feature_ids)

    def length(self, layer: str, *feature_ids: int) -> list[Decimal]:
        """The lengths of features, one to 1,000 of them, in grid steps, in the order asked.

        Of lines it is their length, of polygons that of all their rings, of points 0. A length
        has three places and is rounded down: the length itself is less than 0.001016 above it.
        If an identifier is of no feature, this is refused as 21 NoFeature.

        >>> with Store() as store:
        ...     store.add_layer("roads")
        ...     store.length("roads", store.add("roads", "LINESTRING (0 0, 3 4, 4 5)"))
        [Decimal('6.414')]
        """
        return self._measures("length", layer, feature_ids)

    def distance(self, layer: str, feature_id: int, wkt: str) -> Distance:
        """The distance of a feature from the given geometry, over all points of both, in grid steps; and its square, exact.

        The distance has three places and is rounded down. It is 0 where they share a point.

        >>> with Store() as store:
        ...     store.add_layer("parcels")
        ...     store.add("parcels", "POLYGON ((10 0, 20 0, 10 10, 10 0))")
        ...     store.distance("parcels", 1, "POINT (20 10)")
        1
        Distance(steps=Decimal('7.071'), square=Fraction(50, 1))
        """
        answer = self._line(f"distance {spelling.name(layer)} {spelling.identifier(feature_id)} {spelling.geometry(wkt)}")
        steps, square = answer.split(" ")
        return Distance(Decimal(steps), Fraction(square))

    def relate(self, layer: str, feature_id: int, wkt: str) -> str:
        """The DE-9IM matrix of the geometry of a feature with the given one, nine characters.

        >>> with Store() as store:
        ...     store.add_layer("wells")
        ...     store.relate("wells", store.add("wells", "POINT (3 4)"), "LINESTRING (0 4, 9 4)")
        '0FFFFF102'
        """
        return self._line(f"relate {spelling.name(layer)} {spelling.identifier(feature_id)} {spelling.geometry(wkt)}")

    def match(self, layer: str, pattern: str, wkt: str) -> list[int]:
        """The features whose matrix with the given geometry matches a pattern.

        They are given by their identifiers, rising. A pattern has nine letters of ``TF*012``.

        >>> with Store() as store:
        ...     store.add_layer("wells")
        ...     store.add("wells", "POINT (3 4)")
        ...     store.match("wells", "T********", "LINESTRING (0 4, 9 4)")
        1
        [1]
        """
        rows = self._rows(f"match {spelling.name(layer)} {spelling.pattern(pattern)} {spelling.geometry(wkt)}")
        return list(map(int, rows))

    def query(self, layer: str, predicate: Predicate, wkt: str) -> list[int]:
        """The features of which a predicate holds with the given geometry.

        They are given by their identifiers, rising.

        >>> with Store() as store:
        ...     store.add_layer("wells")
        ...     store.add("wells", "POINT (3 4)")
        ...     store.query("wells", "within", "POLYGON ((0 0, 9 0, 9 9, 0 9, 0 0))")
        1
        [1]
        """
        rows = self._rows(f"query {spelling.name(layer)} {spelling.one_of(Predicate, predicate)} {spelling.geometry(wkt)}")
        return list(map(int, rows))

    def near(self, layer: str, distance: int | Decimal, wkt: str) -> list[int]:
        """The features that have a point no farther than a distance from one of the given geometry, over all points of both.

        They are given by their identifiers, rising. The distance is in grid steps, from 0 on, below 2**32, and has three
        places behind the point at most; `ValueError` for another one. A `float` is not taken.

        >>> with Store() as store:
        ...     store.add_layer("wells")
        ...     store.add("wells", "POINT (20 10)")
        ...     store.near("wells", Decimal("7.071"), "POLYGON ((10 0, 20 0, 10 10, 10 0))")
        ...     store.near("wells", Decimal("7.072"), "POLYGON ((10 0, 20 0, 10 10, 10 0))")
        1
        []
        [1]
        """
        rows = self._rows(f"query {spelling.name(layer)} near {spelling.distance(distance)} {spelling.geometry(wkt)}")
        return list(map(int, rows))

    def nearest(self, layer: str, count: int, wkt: str) -> list[Near]:
        """The features of a layer that are nearest to the given geometry, at most so many, the nearest first.

        Each stands with its distance, over all points of both, in grid steps, rounded down to three places. They are in the order of their
        exact distances; of those at one distance the lesser identifier comes first. ``count`` is from 1 to 1,000.

        >>> with Store() as store:
        ...     store.add_layer("wells")
        ...     store.add("wells", "POINT (20 10)")
        ...     store.add("wells", "POINT (3 4)")
        ...     store.nearest("wells", 1, "LINESTRING (0 0, 3 0)")
        1
        2
        [Near(feature_id=2, steps=Decimal('4.000'))]
        """
        rows = self._rows(f"nearest {spelling.name(layer)} {spelling.count(count)} {spelling.geometry(wkt)}")
        return [Near(int(feature_id), Decimal(steps)) for feature_id, steps in map(str.split, rows)]

    def reach(self, layer: str, ask: str, *feature_ids: int, until: tuple[str, str] | None = None) -> list[int]:
        """What is linked with the given features: the identifiers of all to which a chain leads, theirs too, rising.

        In a chain each feature is as asked with the next; ``ask`` is a predicate or a pattern. ``until`` names a layer and what is asked
        with its features: a feature that is so with one of them is listed, and no chain goes on behind it.

        >>> with Store() as store:
        ...     store.add_layer("pipes")
        ...     store.add_layer("valves")
        ...     store.add("pipes", "LINESTRING (0 0, 9 0)")
        ...     store.add("pipes", "LINESTRING (9 0, 9 9)")
        ...     store.add("pipes", "LINESTRING (9 9, 0 9)")
        ...     store.add("valves", "POINT (9 5)")
        ...     store.reach("pipes", "touches", 1)
        ...     store.reach("pipes", "touches", 1, until=("valves", "intersects"))
        1
        2
        3
        1
        [1, 2, 3]
        [1, 2]
        """
        end = f" until {spelling.name(until[0])} {spelling.ask(until[1])}" if until else ""
        rows = self._rows(f"reach {spelling.name(layer)} {spelling.ask(ask)} {spelling.identifiers(feature_ids)}{end}")
        return list(map(int, rows))

    def join(self, layer: str, ask: str, other: str) -> Iterator[tuple[int, int]]:
        """The pairs of features of two layers, or of one with itself, that are as asked.

        ``ask`` is a predicate, a pattern of nine letters of ``TF*012``, or ``near`` with a distance in grid steps: the
        two have points no farther apart. The feature of the first layer is the first geometry. The pairs of
        identifiers rise by the first, and then by the second.

        >>> with Store() as store:
        ...     store.add_layer("wells")
        ...     store.add_layer("parcels")
        ...     store.add("wells", "POINT (3 4)")
        ...     store.add("wells", "POINT (12 13)")
        ...     store.add("parcels", "POLYGON ((0 0, 9 0, 9 9, 0 9, 0 0))")
        ...     list(store.join("wells", "within", "parcels"))
        ...     list(store.join("wells", "near 5", "parcels"))
        1
        2
        1
        [(1, 1)]
        [(1, 1), (2, 1)]
        """
        rows = self._rows(f"join {spelling.name(layer)} {spelling.pair_ask(ask)} {spelling.name(other)}")
        return map(_pair_of, rows)

    def join_one(self, layer: str, ask: str, other: str, feature_id: int) -> list[int]:
        """The features of a layer that are as asked with one feature of another, or with another one of theirs.

        They are given by their identifiers, rising. ``ask`` is as that of `join`.

        >>> with Store() as store:
        ...     store.add_layer("parcels")
        ...     store.add("parcels", "POLYGON ((0 0, 9 0, 9 9, 0 9, 0 0))")
        ...     store.add("parcels", "POLYGON ((9 0, 20 0, 20 9, 9 9, 9 0))")
        ...     store.add("parcels", "POLYGON ((22 0, 30 0, 30 9, 22 9, 22 0))")
        ...     store.join_one("parcels", "touches", "parcels", 2)
        ...     store.join_one("parcels", "near 2.5", "parcels", 2)
        1
        2
        3
        [1]
        [1, 3]
        """
        words = f"{spelling.name(layer)} {spelling.pair_ask(ask)} {spelling.name(other)} {spelling.identifier(feature_id)}"
        return [int(row) for row in self._rows(f"join {words}")]

    def add_rule(self, name: str, form: RuleForm, layer: str, ask: str, other: str) -> None:
        """Adds a rule between the features of two layers, or of one, where it holds.

        With ``never`` no feature of the first layer is as asked with one of the second; with ``each`` every
        feature of the first layer is as asked with some other one of the second. ``ask`` is as that of `join`:
        so ``near 20`` with ``never`` keeps two networks more than 20 grid steps apart.

        From then on an edit that would break the rule is refused as 37 RuleBroken, and `Refused.rule` and
        `Refused.ids` say what would break it. An addition is undone and redone as an edit is.

        >>> with Store() as store:
        ...     store.add_layer("parcels")
        ...     store.add("parcels", "POLYGON ((0 0, 9 0, 9 9, 0 9, 0 0))")
        ...     store.add_rule("apart", "never", "parcels", "overlaps", "parcels")
        ...     try:
        ...         store.add("parcels", "POLYGON ((5 0, 15 0, 15 9, 5 9, 5 0))")
        ...     except Refused as refused:
        ...         refused.rule, refused.ids
        1
        ('apart', [1, 2])

        >>> with Store() as store:
        ...     store.add_layer("pipes", "linestring")
        ...     store.add_layer("cables", "linestring")
        ...     store.add_rule("clear", "never", "pipes", "near 20", "cables")
        ...     store.add("pipes", "LINESTRING (0 0, 100 0)")
        ...     store.add("cables", "LINESTRING (0 21, 100 21)")
        ...     try:
        ...         store.add("cables", "LINESTRING (0 20, 100 20)")
        ...     except Refused as refused:
        ...         refused.rule, refused.ids
        1
        1
        ('clear', [1, 2])
        """
        spelling.one_of(RuleForm, form)
        rule = Rule(spelling.name(name), form, spelling.name(layer), spelling.pair_ask(ask), spelling.name(other))
        self.run(f"rule add {rule.line}")

    def add_value_rule(
        self,
        name: str,
        demand: Demand,
        layer: str,
        column: str,
        allowed: Iterable[Value] = (),
        least: Value | None = None,
        greatest: Value | None = None,
    ) -> None:
        """Adds a rule on the values in a column of a layer, where it holds.

        With ``unique`` no two features have the same value there. With ``one-of`` each value is one of those that are
        ``allowed``, 1 to 1,000. With ``range`` each lies between ``least`` and ``greatest``, both of them in the range,
        of which one may be left out. Of features without a value all these ask nothing.

        With ``required`` each feature has a value there: so one is added and given its value as one step, in a
        `together`. An edit that would break the rule is refused as with `add_rule`.

        >>> with Store() as store:
        ...     store.add_layer("parcels", "point")
        ...     store.add_column("parcels", "number", "text")
        ...     store.add_column("parcels", "use", "text")
        ...     store.add_value_rule("numbers", "unique", "parcels", "number")
        ...     store.add_value_rule("uses", "one-of", "parcels", "use", ["field", "road"])
        ...     for x in 3, 5:
        ...         added = store.add("parcels", f"POINT ({x} 4)")
        ...     store.set("parcels", 1, "number", "17/4")
        ...     for column, value in ("number", "17/4"), ("use", "sea"):
        ...         try:
        ...             store.set("parcels", 2, column, value)
        ...         except Refused as refused:
        ...             refused.rule, refused.ids
        ('numbers', [1, 2])
        ('uses', [2])
        """
        spelling.one_of(Demand, demand)
        rule = ValueRule(spelling.name(name), demand, spelling.name(layer), spelling.name(column), tuple(allowed), least, greatest)
        has_ends = least is not None or greatest is not None
        if bool(rule.allowed) != (demand == "one-of") or has_ends != (demand == "range"):
            raise ValueError("one-of names the values that are allowed, range one end or both, and the others name no value")
        self.run(f"rule add {rule.line}")

    def drop_rule(self, name: str) -> None:
        """Drops a rule.

        >>> with Store() as store:
        ...     store.add_layer("wells")
        ...     store.add_rule("apart", "never", "wells", "equals", "wells")
        ...     store.drop_rule("apart")
        """
        self.run(f"rule drop {spelling.name(name)}")

    def rules(self) -> list[AnyRule]:
        """The rules, in the order in which they were added.

        >>> with Store() as store:
        ...     store.add_layer("wells")
        ...     store.add_rule("apart", "never", "wells", "equals", "wells")
        ...     store.rules()
        [Rule(name='apart', form='never', layer='wells', ask='equals', other='wells')]
        """
        return [rule_of(row) for row in self._rows("rules")]

    def undo(self) -> None:
        """Takes back the last edit that is not undone yet, if it is this editor's.

        >>> with Store() as store:
        ...     store.add_layer("wells")
        ...     store.undo()
        ...     store.layers()
        []
        """
        self.run("undo")

    def redo(self) -> None:
        """Redoes the last edit that was undone, if it is this editor's.

        >>> with Store() as store:
        ...     store.add_layer("wells")
        ...     store.undo()
        ...     store.redo()
        ...     store.layers()
        [Layer(name='wells', kind='any')]
        """
        self.run("redo")

    def _encoded(self, line: str) -> bytes:
        """A line as it is sent. `RuntimeError` for an edit while a group is open, which it would come before."""
        if self._program.has_group and (words_of_line(line) or [""])[0] not in QUESTIONS:
            raise RuntimeError("a group is open: give it the edit, or end it first")
        encoded = spelling.encoded(line, self._address)
        if self._look is not None:
            self._look(line)
        return encoded

    def _all_encoded(self, lines: Sequence[str]) -> list[bytes]:
        """Lines as they are sent, as `_encoded` makes each."""
        if self._program.has_group or self._look is not None:
            return [self._encoded(line) for line in lines]
        return spelling.all_encoded(lines, self._address)

    def _features(self, layer: str, word: str, which: str) -> list[Feature]:
        """The features that a question gives, of which the columns are asked first: a row has no types."""
        name = spelling.name(layer)
        answers = self.run_all([f"columns {name}", f"{word} {name}{which}"])
        for answer in reversed(answers):
            if isinstance(answer, Refused):
                raise answer
        columns, rows = cast("list[list[str]]", answers)
        types = dict(map(column_of, columns))
        return [feature_of(row, types) for row in rows]

    def _line(self, line: str) -> str:
        """The answer of a command that has one line."""
        return cast(str, self.run(line))

    def _measures(self, measure: str, layer: str, feature_ids: tuple[int, ...]) -> list[Decimal]:
        """What is measured of features."""
        rows = self._rows(f"{measure} {spelling.name(layer)} {spelling.identifiers(feature_ids)}")
        return [Decimal(row.partition(" ")[2]) for row in rows]

    def _rows(self, line: str) -> list[str]:
        """The rows that answer a command."""
        return cast("list[str]", self.run(line))
