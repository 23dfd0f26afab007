#!/bin/sh
# A time-limited name and password for a TURN server with an `auth-secret` line, as JSON, made with openssl.
#
# usage: credentials.sh [ID [SECONDS]]
#
# The secret is in the variable AUTH_SECRET. The name is the expiry time, SECONDS from now (3600) in seconds since 1970, and after a
# colon the ID, if there is one, without quotation marks and backslashes. The variable NOW is the moment to count from, if it isn't
# now. openssl gets the secret as a word, which `ps` shows to the machine's other users: on a shared machine take credentials.py.
set -eu
username=$((${NOW:-$(date +%s)} + ${2:-3600}))${1:+:$1}
password=$(printf %s "$username" | openssl dgst -sha1 -hmac "$AUTH_SECRET" -binary | openssl base64)
printf '{"username": "%s", "credential": "%s"}\n' "$username" "$password"
