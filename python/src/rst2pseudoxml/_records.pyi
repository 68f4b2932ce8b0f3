from typing import Any

def nodes(
    records: bytes,
    document: Any,
    attributes: dict[str, Any],
    classes: dict[str, Any],
    element: type,
    text: type[str],
    source: str,
    noted: list[Any],
) -> list[Any]:
    """The nodes that records of a document have, each with all that is in it.

    `document` is the parent of these nodes, and `attributes` gets what it has. `classes` has classes derived from `element` by their names, as
    `vars(docutils.nodes)` does, and texts are of the class `text`. Elements with ids, names or the like are added to `noted`, in their order.
    Bytes that aren't records are a ValueError, an unknown element is a KeyError.
    """
