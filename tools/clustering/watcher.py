"""Who is told of what happens to a system, as it comes."""


class Watcher:
    """Does nothing with it."""

    def replied(self, name, number, frame):
        """A plugin replied to a call, or carried it out, and nobody has the reply (None)."""

    def started(self, name, record):
        """A plugin that was killed was started again, over this record."""

    def began(self, record):
        """The orchestrator was started, over this record."""

    def joined(self, name, session):
        """A node joined, with a new store, and was told this session."""

    def raised(self, name, session):
        """A session was raised in a plugin's store, while it was at rest."""

    def lost(self, name):
        """A node is no more."""
