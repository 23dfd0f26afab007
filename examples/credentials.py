#!/usr/bin/env python3
"""A time-limited name and password for a TURN server with an `auth-secret` line, as JSON, for a web service to copy.

usage: credentials.py [ID [SECONDS]]

The secret is in the variable AUTH_SECRET. The name is the expiry time, SECONDS from now (3600) in seconds since 1970, and after a
colon the ID, if there is one: who asks, as that is to be seen in `turn inspect`. The variable NOW is the moment to count from, if
it isn't now."""
import base64
import hashlib
import hmac
import json
import os
import sys
import time


def credentials(secret, user_id="", seconds=3600, now=None):
    expiry = int(time.time() if now is None else now) + seconds
    username = f"{expiry}:{user_id}" if user_id else str(expiry)
    digest = hmac.new(secret.encode(), username.encode(), hashlib.sha1).digest()
    return {"username": username, "credential": base64.b64encode(digest).decode()}


if __name__ == "__main__":
    user_id = sys.argv[1] if len(sys.argv) > 1 else ""
    seconds = int(sys.argv[2]) if len(sys.argv) > 2 else 3600
    print(json.dumps(credentials(os.environ["AUTH_SECRET"], user_id, seconds, os.environ.get("NOW"))))
