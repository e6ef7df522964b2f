"""The address of a dump's page: it is the same when the server is started again, for the same user and the same dump.

The token is derived from a secret of the user, which no other user can read, and from the SHA-256 of the dump. So a link into the page stays good, and nobody who has
the dump alone can make one.
"""

from __future__ import annotations

import base64
import hmac
import os
import secrets
from dataclasses import dataclass
from pathlib import Path

FIRST_PORT, PORTS = 20000, 12000


@dataclass(frozen=True)
class Address:
    port: int
    token: str


def random_token() -> str:
    """192 bits."""
    return secrets.token_urlsafe(24)


def address_of(sha256: str) -> Address:
    """The address that belongs to a dump; a new one each time where the secret cannot be kept."""
    secret = _secret()
    if secret is None:
        return Address(0, random_token())
    made = hmac.digest(secret, b"desk " + sha256.encode(), "sha256")
    return Address(FIRST_PORT + int.from_bytes(made[24:28], "big") % PORTS, base64.urlsafe_b64encode(made[:24]).decode())


def secret_file() -> Path:
    return Path(os.environ.get("XDG_STATE_HOME") or Path.home() / ".local/state") / "gprom-desk" / "secret"


def _secret() -> bytes | None:
    """The secret of the user, made when it is first wanted. One that others may read is none."""
    path = secret_file()
    try:
        path.parent.mkdir(mode=0o700, parents=True, exist_ok=True)
        try:
            with open(os.open(path, os.O_CREAT | os.O_EXCL | os.O_WRONLY, 0o600), "wb") as file:
                file.write(secrets.token_bytes(32))
        except FileExistsError:
            pass
        state = path.lstat()
        if state.st_uid != os.geteuid() or state.st_mode & 0o077:
            return None
        found = path.read_bytes()
        return found if len(found) == 32 else None
    except OSError:
        return None
