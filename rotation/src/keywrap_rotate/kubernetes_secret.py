"""Rotates a Secret of Kubernetes in JSON, whose data are wrapped keys: an example for stores of your own.

usage: python -m keywrap_rotate.kubernetes_secret FILE"""

import base64
import json
import sys

from keywrap_rotate import Refused, WrongKeks, challenges, replace, rewrap_all


def main(path: str) -> None:
    with open(path, "rb") as file:
        old = file.read()
    secret = json.loads(old)
    if not secret.get("data"):
        raise ValueError("it has no data")
    keys = {
        name: base64.b64decode(key, validate=True)
        for name, key in secret["data"].items()
    }
    secret["data"] = {
        name: base64.b64encode(key).decode()
        for name, key in rewrap_all(keys, challenges()).items()
    }
    replace(
        path,
        json.dumps(secret, indent=2, ensure_ascii=False).encode() + b"\n",
        old_bytes=old,
    )
    print(f"{path}: {len(keys)} keys are under the new KEK")


if __name__ == "__main__":
    try:
        main(
            *sys.argv[1:] if sys.argv[1:] not in ([], ["--help"]) else sys.exit(__doc__)
        )
    except (OSError, ValueError, KeyError, Refused, WrongKeks) as error:
        sys.exit(f"{sys.argv[1]}: {getattr(error, 'strerror', None) or error}")
