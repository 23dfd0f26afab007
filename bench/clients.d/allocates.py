"""Allocates, one after the other, with a kill and a start of the server in between.

words: PORT USER PASSWORD FILE

Prints `talking` after 20 of them and goes on until FILE is there; what finds no server is sent again, as clients do. Then the
bytes of each Allocate that got a success get the bytes of that success again, and each allocation is deleted."""
import os
import sys

sys.dont_write_bytecode = True
sys.path.insert(0, os.path.dirname(os.path.dirname(os.path.abspath(__file__))))
from turn_client import Client, Failed, Refused

MOST = 600
LOCAL = "127.0.0.2"  # no other client's, so that no five-tuple has an allocation of a client that went without deleting it


def end(client):
    """Deletes an allocation. A 437 to a request that was sent again says that it is deleted: the success was lost with the server."""
    try:
        client.refresh(0)
    except Refused as refused:
        if refused.code != 437:
            raise


def main(port, user, password, again):
    clients = []
    while not os.path.exists(again) or len(clients) < 20:
        if len(clients) == MOST:
            end(clients.pop(0))
        client = Client(("127.0.0.1", int(port)), user, password, LOCAL)
        client.allocate()
        clients.append(client)
        if len(clients) == 20:
            print("talking", flush=True)
    for place, client in enumerate(clients):
        response = client.exchange(client.allocate_request)
        if response != client.allocate_response:
            raise Failed(f"Allocate {place} of {len(clients)} got {response.hex()}, and {client.allocate_response.hex()} before")
    ports = {client.relayed for client in clients}
    if len(ports) != len(clients):
        raise Failed(f"{len(clients)} allocations have {len(ports)} relayed addresses")
    for client in clients:
        client.refresh(0)


if __name__ == "__main__":
    try:
        main(*sys.argv[1:])
    except Failed as failed:
        sys.exit(str(failed))
