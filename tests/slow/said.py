"""What a command says."""

from dataclasses import dataclass


@dataclass(frozen=True)
class Said:
    """Both outputs of a command, as texts, and its exit status; and what is left of the journal that it was given."""

    out: str
    errors: str
    status: int
    journal: bytes | None = None
