"""A guess of the identifiers that creates will answer.

The tool does not play scripts. It follows the slots as if every create and
delete by a task succeeded: "Creation takes the lowest slot that is free and
has a serial left." Where a script means a call to be refused, or deletes SELF,
the guess needs the writer's help; the text form has words for both.
"""

from lib import tables


class Slots:
    """One table's slots: live or not, and the last serial of each."""

    def __init__(self, table):
        self.kind = table.kind
        self.serials = [0] * table.room
        self.live = [False] * table.room
        self.lost_at = None      # the line after which the guess is off

    def create(self):
        """The identifier the next create answers, or None if refused."""
        for slot, serial in enumerate(self.serials):
            if not self.live[slot] and serial < tables.MOST_SERIAL:
                self.live[slot] = True
                self.serials[slot] += 1
                return self.serials[slot] * tables.SLOTS + slot
        return None

    def delete(self, identifier, line):
        """Frees the slot; a SELF nobody can see from here loses track."""
        if self.kind == "task" and identifier == tables.SELF:
            self.lost_at = self.lost_at or line
            return
        serial, slot = divmod(identifier, tables.SLOTS)
        if slot < len(self.serials) and self.serials[slot] == serial:
            self.live[slot] = False


def fresh_slots():
    """The tables of a fresh state, which holds one task, identifier 64."""
    slots = {kind: Slots(table) for kind, table in tables.TABLES.items()}
    slots["task"].create()
    return slots
