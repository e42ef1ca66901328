"""What ends an adoption: something that the program text cannot express."""


class Refusal(Exception):
    """Why an object is refused, and at which address of the placed object, where there is one."""

    def __init__(self, reason: str, address: int | None = None) -> None:
        super().__init__(reason)
        self.reason = reason
        self.address = address
