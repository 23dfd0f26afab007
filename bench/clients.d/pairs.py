"""Pairs of ports with the standard library alone: reserved ports over a kill of the server.

words: PORT USER PASSWORD FILE

It allocates a pair each two seconds, prints `talking` after the first, and goes on until FILE is there; the server is killed and
started again in between. Then each reserved port of the last 20 seconds is allocated by its token, from another address, and
data goes out from it."""
import os
import socket
import sys
import time

sys.dont_write_bytecode = True
sys.path.insert(0, os.path.dirname(os.path.dirname(os.path.abspath(__file__))))
from turn_client import Client, Failed

LOCAL, OTHER = "127.0.0.4", "127.0.0.5"  # no other client's


def reserve(server, user, password):
    """Returns the moment, and a client with the first port of a pair."""
    client = Client(server, user, password, LOCAL)
    moment = time.monotonic()
    _, port = client.allocate_pair()
    if port % 2 != 0 or client.token is None:
        raise Failed(f"a pair got port {port}, token {client.token}")
    return moment, client


def take(server, user, password, first):
    """Allocates the port that is reserved beside a client's, and sends over it."""
    client = Client(server, user, password, OTHER)
    _, port = client.allocate_reserved(first.token)
    if port != first.relayed[1] + 1:
        raise Failed(f"a token got port {port}, and its pair begins with {first.relayed[1]}")
    peer = socket.socket(socket.AF_INET, socket.SOCK_DGRAM)
    peer.bind(("127.0.0.1", 0))
    peer.settimeout(2)
    client.permit(peer.getsockname())
    client.send_to(peer.getsockname(), b"hello")
    data, sender = peer.recvfrom(65536)
    if data != b"hello" or sender != client.relayed:
        raise Failed(f"the peer got {data} from {sender}")
    client.refresh(0)


def main(port, user, password, again):
    server = ("127.0.0.1", int(port))
    pairs = [reserve(server, user, password)]
    print("talking", flush=True)
    while not os.path.exists(again):
        time.sleep(0.1)
        if time.monotonic() >= pairs[-1][0] + 2:
            pairs.append(reserve(server, user, password))
    begun = time.monotonic() - 20
    for moment, first in pairs:
        if moment >= begun:
            take(server, user, password, first)


if __name__ == "__main__":
    try:
        main(*sys.argv[1:])
    except (Failed, OSError) as failed:
        sys.exit(str(failed) or repr(failed))
