"""What `serve` is told of its clients' limits."""

from dataclasses import dataclass, replace


@dataclass
class Limits:
    """Numbers of the settings, of which 0 is no limit and None is left out: `renew_floor` in seconds, how many IA_PDs
    of a message and units of a client and of a relay port, and messages a second."""

    renew_floor: int | None = 0
    ias_per_message: int | None = 0
    units_per_client: int | None = 0
    units_per_port: int | None = 0
    client_rate: int | None = 0
    bind_to_port: bool = False

    def rows(self):
        keys = ("renew_floor", "ias_per_message", "units_per_client", "units_per_port", "client_rate")
        told = [f"{key} = {getattr(self, key)}" for key in keys if getattr(self, key) is not None]
        return told + ["bind_to_port = true"] * self.bind_to_port

    def in_force(self, life):
        """The limits with what holds where one is left out; `life` is the lifetime that is aimed at."""
        usual = {"renew_floor": max(10, life // 10), "ias_per_message": 4, "units_per_client": 8, "units_per_port": 64,
                 "client_rate": 20}
        return replace(self, **{key: value for key, value in usual.items() if getattr(self, key) is None})


# No answer depends on limits, or on how long ago a prefix was given.
UNLIMITED = Limits()
NOT_SAID = Limits(*[None] * 5)
