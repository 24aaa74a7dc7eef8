"""Which modes may use a way: the road profile of docs/MAKE_A_REGION.md."""

from collections.abc import Mapping

MODES = ("foot", "bike", "car")
OWN_TAG = {"foot": "foot", "bike": "bicycle", "car": "motor_vehicle"}
PROFILE_TAGS = ("highway", "access", "foot", "bicycle", "motor_vehicle", "oneway", "oneway:bicycle", "junction", "area")
ALLOWED = {"yes", "designated", "permissive", "official", "destination"}
FORBIDDEN = {"no", "private", "dismount", "use_sidepath"}

ALL = frozenset(MODES)
CLASSES: dict[str, frozenset[str]] = {
    **dict.fromkeys(("motorway", "motorway_link", "trunk", "trunk_link"), frozenset({"car"})),
    **dict.fromkeys(("primary", "primary_link", "secondary", "secondary_link", "tertiary", "tertiary_link", "unclassified",
                     "residential", "living_street", "service", "road"), ALL),
    **dict.fromkeys(("track", "path", "cycleway"), frozenset({"foot", "bike"})),
    **dict.fromkeys(("pedestrian", "footway", "steps", "bridleway", "corridor"), frozenset({"foot"})),
}


def modes_of(tags: Mapping[str, str]) -> set[str]:
    """The modes that may use a way with these tags."""
    table = CLASSES.get(tags.get("highway", ""))
    if table is None or tags.get("area") == "yes":
        return set()
    return {mode for mode in MODES if _may(tags.get(OWN_TAG[mode]), tags.get("access"), mode in table)}


def _may(own: str | None, access: str | None, by_class: bool) -> bool:
    """The first rule that applies: the mode's own tag, `access`, the table of classes."""
    if own in ALLOWED:
        return True
    if own in FORBIDDEN or access in ("no", "private"):
        return False
    return by_class
