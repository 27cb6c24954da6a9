"""A token for each person of the moved desk."""
import os
import secrets

BYTES = 16    # 128 bits, as 32 letters and digits


class Tokens:
    """The tokens of persons, each with the address that RT had of them."""

    def __init__(self, people):
        self.of = {name: (address, secrets.token_hex(BYTES)) for name, address in sorted(people)}

    def settings(self):
        lines = [f'{token} = "{name}"' for name, (_, token) in self.of.items()]
        return "\n".join(["[tokens]", *lines, ""])

    def write(self, path):
        """A table of name, address and token, which its owner alone can read. It is put over none."""
        with owned(path, os.O_EXCL) as file:
            for name, (address, token) in self.of.items():
                file.write(f"{name}\t{' '.join((address or '').split())}\t{token}\n")


def owned(path, flags=os.O_TRUNC):
    """A file to write that its owner alone can read."""
    place = os.open(path, os.O_WRONLY | os.O_CREAT | os.O_NOFOLLOW | flags, 0o600)
    os.fchmod(place, 0o600)
    return open(place, "w", encoding="utf-8", newline="")
