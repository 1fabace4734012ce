"""Every fault of an inventory and of a playbook, as `lint` tells them: those of the inventory's text, then those that keep it from being a fleet, those of the playbook's text, and names in its
patterns that nothing has. What stands on a file with faults isn't looked at."""

from faults import Every
from fleet import Fleet
from inventory import read_inventory
from playbook import read_playbook
from rules import turned

MOST_TOLD = 100


def every_fault(inventory, playbook=None):
    """All faults, in their order."""
    told, of_playbook = Every(), Every()
    places = read_inventory(inventory, told)
    fleet = None
    if not told.found or turned("fleets-of-right-inventories"):
        fleet = Fleet(places, told)
    if playbook is None or (told.found and turned("playbooks-beside-inventories")):
        return told.found
    plays = read_playbook(playbook, of_playbook)
    told.found += of_playbook.found
    if fleet is None or of_playbook.found or (told.found and not turned("patterns-of-fleets")):
        return told.found
    return told.found + [fault for play in plays for fault in fleet.unknown(play.parts)]


def fault_lines(faults):
    """The lines of the first faults, and behind them how many there are. What helps behind each is left out."""
    shown = faults[: len(faults) if turned("a-hundred-faults-are-told") else MOST_TOLD]
    return [*(fault.line() for fault in shown), f"faults={len(shown) if turned('all-faults-are-counted') else len(faults)}\n"]
