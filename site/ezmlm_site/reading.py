"""Mails as readers see them, read in a process of its own: one that takes too long is shown as its source."""

from __future__ import annotations

from . import message, worker


class Reader:
    """Reads one mail after the other."""

    def __init__(self, seconds: float = worker.SECONDS) -> None:
        self.worker = worker.Worker((message.read, message.read_as_source), (message.Shown, message.Attachment), seconds)

    def read(self, raw: bytes) -> message.Shown:
        """What is shown of a mail: all of it, or else its fields and its source, or else its source alone. It always ends."""
        why = ''
        for place in (0, 1):
            try:
                shown: message.Shown = self.worker.call(place, raw)
            except worker.Ended as error:
                why = str(error)
            else:
                break
        else:
            shown = message.Shown()
            message.show_source(raw, shown)
        if why:
            shown.notes.append(message.why_source(why))
        return shown

    def close(self) -> None:
        self.worker.close()
