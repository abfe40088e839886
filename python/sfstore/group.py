"""A group of edits of features: lines that are kept until its end, and then carried out as one step, or not at all."""

from __future__ import annotations

from collections.abc import Callable
from types import TracebackType
from typing import Union, cast

from sfstore import edits, spelling
from sfstore.language import GROUP_MAX
from sfstore.program import Link
from sfstore.results import Refused, Value

__all__ = ["Added", "Group", "Which"]


class Added:
    """A feature that a group adds, as `Group.add` gives it.

    Inside of the group it names the feature, until the group adds another one to the same layer. Afterwards `id` is
    the identifier that the feature was given; where one is wanted it may stand itself, too.

    >>> with Store() as store:
    ...     store.add_layer("wells")
    ...     with store.together() as group:
    ...         well = group.add("wells", "POINT (3 4)")
    ...         group.replace("wells", well, "POINT (5 6)")
    ...     store.get("wells", well.id)
    [Feature(id=1, wkt='POINT (5 6)', values={})]
    """

    def __init__(self, group: Group, layer: str) -> None:
        self._group = group
        self._layer = layer
        self._id: int | None = None

    @property
    def id(self) -> int:
        """Its identifier. `RuntimeError` as long as the group is not carried out.

        A later member of the group may have deleted the feature again.
        """
        if self._id is None:
            raise RuntimeError("the feature has no identifier: its group is not carried out")
        return self._id

    def __index__(self) -> int:
        return self.id

    def __repr__(self) -> str:
        return f"<Added to {self._layer}: {'not carried out' if self._id is None else self._id}>"


Which = Union[int, Added]
"""What names a feature in a group: its identifier, or what `Group.add` has given for it."""


class Group:
    """Several edits of features as one step, as `Editor.together` gives it.

    Its calls are those of `Editor`, and each only keeps a line. At the end of the ``with`` all lines are sent at once:
    all edits are carried out in their order, each in what those before it have left, or none of them. They are one
    step of the history. If an exception leaves the ``with``, nothing is sent; an empty group sends nothing.

    The end raises `Refused` if an edit is refused, and `Refused.member` is its number. Its other exceptions are those
    of any edit. Outside of the ``with``, and in another thread, the calls raise `RuntimeError`.
    """

    def __init__(self, program: Link, address: str, look: Callable[[str], object] | None = None) -> None:
        self._program = program
        self._address = address
        self._look = look
        self._members: list[bytes] = []
        self._added: list[Added] = []
        # The last one of each layer.
        self._last: dict[str, Added] = {}
        self._is_begun = False
        self._is_over = False
        self._ids: list[int] | None = None

    def __enter__(self) -> Group:
        self._program.check_user()
        if self._is_begun:
            raise RuntimeError("the group was begun before: make another one")
        if self._program.closed:
            raise RuntimeError("the store is closed")
        if self._program.has_group:
            raise RuntimeError("another group is open: end it first, as no group has another one inside")
        self._is_begun = self._program.has_group = True
        return self

    def __exit__(
        self,
        error_type: type[BaseException] | None,
        error: BaseException | None,
        traceback: TracebackType | None,
    ) -> None:
        self._is_over = True
        self._program.has_group = False
        if error_type is None:
            self._ids = self._carried_out() if self._members else []
            for added, number in zip(self._added, self._ids):
                added._id = number

    @property
    def ids(self) -> list[int]:
        """The identifiers of the features that were added, in order. `RuntimeError` if the group is not carried out."""
        if self._ids is None:
            raise RuntimeError("the group is not carried out")
        return self._ids

    def __len__(self) -> int:
        return len(self._members)

    def add(self, layer: str, geometry: str | bytes) -> Added:
        """Adds a feature, as `Editor.add` does. What is given names it in later edits of the group.

        It does so until the group adds another feature to the layer: edit a new feature before you add the next one.
        """
        self._keep(edits.add(layer, geometry))
        added = self._last[layer] = Added(self, layer)
        self._added.append(added)
        return added

    def delete(self, layer: str, feature: Which) -> None:
        """Removes a feature, as `Editor.delete` does."""
        self._keep(edits.delete(layer, self._word(layer, feature)))

    def replace(self, layer: str, feature: Which, wkt: str) -> None:
        """Gives a feature another geometry, as `Editor.replace` does."""
        self._keep(edits.replace(layer, self._word(layer, feature), wkt))

    def vertex_insert(self, layer: str, feature: Which, part: int, ring: int, index: int, x: int, y: int) -> None:
        """Inserts a vertex, as `Editor.vertex_insert` does."""
        self._keep(edits.vertex_insert(layer, self._word(layer, feature), part, ring, index, x, y))

    def vertex_move(self, layer: str, feature: Which, part: int, ring: int, index: int, x: int, y: int) -> None:
        """Moves a vertex, as `Editor.vertex_move` does."""
        self._keep(edits.vertex_move(layer, self._word(layer, feature), part, ring, index, x, y))

    def vertex_remove(self, layer: str, feature: Which, part: int, ring: int, index: int) -> None:
        """Removes a vertex, as `Editor.vertex_remove` does."""
        self._keep(edits.vertex_remove(layer, self._word(layer, feature), part, ring, index))

    def set(self, layer: str, feature: Which, column: str, value: Value) -> None:
        """Sets a value, as `Editor.set` does."""
        self._keep(edits.set_value(layer, self._word(layer, feature), column, value))

    def unset(self, layer: str, feature: Which, column: str) -> None:
        """Clears a value, as `Editor.unset` does."""
        self._keep(edits.unset(layer, self._word(layer, feature), column))

    def _keep(self, line: str) -> None:
        self._program.check_user()
        if not self._is_begun or self._is_over:
            raise RuntimeError("the group is not open: its calls stand inside of its `with`")
        if len(self._members) == GROUP_MAX:
            raise ValueError(f"a group has at most {GROUP_MAX} members")
        encoded = spelling.encoded(line)
        if self._look is not None:
            self._look(line)
        self._members.append(encoded)

    def _word(self, layer: str, feature: Which) -> str:
        """The word for a feature. `ValueError` for an addition that can't be named here."""
        if not isinstance(feature, Added) or feature._group is not self:
            return str(spelling.identifier(cast(int, feature)))
        if feature._layer != layer:
            raise ValueError(f"the feature is one of {feature._layer}, not of {layer}")
        if self._last[layer] is not feature:
            raise ValueError(f"the group has added another feature to {layer} since: edit each one before you add the next")
        return "last"

    def _carried_out(self) -> list[int]:
        """Sends the lines, and gives the identifiers of the additions."""
        head = f"{self._address}together {len(self._members)}\n".encode()
        [outcome] = self._program.exchange([b"".join([head, *self._members])])
        if isinstance(outcome, Refused):
            raise outcome
        return [int(word) for word in cast(str, outcome).split(" ")[1:]]
