"""A call with the standard library alone: over a channel to one peer, by Send and Data indications to another.

words: PORT USER PASSWORD FILE

Numbered datagrams go both ways every 20 ms. After a second of that it prints `talking`, and goes on until FILE is there; the
server is killed and started again in between. Then data goes on both ways with the relayed address as before, without
any request; the bytes of the Allocate get the bytes of the first response; the allocation is renewed, and deleted."""
import os
import select
import socket
import sys
import time

sys.dont_write_bytecode = True
sys.path.insert(0, os.path.dirname(os.path.dirname(os.path.abspath(__file__))))
from turn_client import Client, Failed

CHANNEL = 0x4000
STEPS = 50
LOCAL = "127.0.0.3"  # no other client's, so that its five-tuple has no allocation


class Call:
    def __init__(self, port, user, password):
        self.client = Client(("127.0.0.1", port), user, password, LOCAL)
        self.peers = []
        for _ in range(2):
            peer = socket.socket(socket.AF_INET, socket.SOCK_DGRAM)
            peer.bind(("127.0.0.1", 0))
            self.peers.append(peer)
        self.client.allocate()
        self.client.bind(CHANNEL, self.peers[0].getsockname())
        self.client.permit(self.peers[1].getsockname())
        self.number = 0
        self.got = {"client to bound peer": set(), "client to peer": set(), "bound peer to client": set(), "peer to client": set()}

    def take(self, seconds):
        """Reads what arrives in some seconds."""
        until = time.monotonic() + seconds
        sockets = [self.client.socket, *self.peers]
        while (left := until - time.monotonic()) > 0:
            for one in select.select(sockets, [], [], left)[0]:
                if one is self.client.socket:
                    self.from_server()
                else:
                    data, sender = one.recvfrom(65536)
                    if sender != self.client.relayed:
                        raise Failed(f"a peer got data from {sender}, and {self.client.relayed} is the relayed address")
                    way = "client to bound peer" if one is self.peers[0] else "client to peer"
                    self.got[way].add(int(data))

    def from_server(self):
        arrived = self.client.receive(0.001)
        if arrived is None:
            return
        place, data = arrived
        if place == CHANNEL:
            self.got["bound peer to client"].add(int(data))
        elif place == self.peers[1].getsockname():
            self.got["peer to client"].add(int(data))
        else:
            raise Failed(f"data from {place}")

    def talk(self, steps):
        """Sends the next numbers, each over all four ways, and returns the first of them."""
        first = self.number
        for _ in range(steps):
            text = str(self.number).encode()
            self.number += 1
            self.client.send_to_channel(CHANNEL, text)
            self.client.send_to(self.peers[1].getsockname(), text)
            for peer in self.peers:
                peer.sendto(text, self.client.relayed)
            self.take(0.02)
        return first

    def hold(self, when):
        """Fails unless all of the next numbers arrive."""
        first = self.talk(STEPS)
        self.take(0.5)
        for way, got in self.got.items():
            arrived = len([number for number in got if number >= first])
            if arrived != STEPS:
                raise Failed(f"{when}: {way}: {arrived} of {STEPS} arrived")


def main(port, user, password, again):
    call = Call(int(port), user, password)
    call.hold("before the kill")
    print("talking", flush=True)
    while not os.path.exists(again):
        call.talk(1)
    call.hold("after the start")
    response = call.client.exchange(call.client.allocate_request)
    if response != call.client.allocate_response:
        raise Failed(f"the Allocate got {response.hex()}, and {call.client.allocate_response.hex()} before")
    if call.client.refresh(700) != 700:
        raise Failed("Refresh: not the lifetime that was asked for")
    call.hold("after Refresh")
    if call.client.refresh(0) != 0:
        raise Failed("the allocation was not deleted")
    first = call.talk(5)
    call.take(0.2)
    if any(number >= first for got in call.got.values() for number in got):
        raise Failed("data after the allocation was deleted")


if __name__ == "__main__":
    try:
        main(*sys.argv[1:])
    except Failed as failed:
        sys.exit(str(failed))
