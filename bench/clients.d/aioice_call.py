"""A call with aioice: Allocate, a channel, data, ChannelBind again, Refresh, delete.

words: PORT PEER_PORT USER PASSWORD [FILE]

With FILE it prints `talking` after the first data, sends on until FILE is there (the server is killed and started again in
between), and goes on with the same allocation. The variables SERVER_HOST and PEER_HOST are addresses other than 127.0.0.1."""
import asyncio
import os
import struct
import sys

from aioice import stun, turn


class Receiver(asyncio.DatagramProtocol):
    def __init__(self):
        self.arrived = asyncio.Queue()
        self.ended = asyncio.get_running_loop().create_future()

    def connection_made(self, transport):
        pass

    def datagram_received(self, data, address):
        self.arrived.put_nowait((data, address))

    def connection_lost(self, exception):
        if not self.ended.done():
            self.ended.set_result(None)


async def main(port, peer_port, user, password, again=None):
    peer = (os.environ.get("PEER_HOST", "127.0.0.1"), int(peer_port))
    server = (os.environ.get("SERVER_HOST", "127.0.0.1"), int(port))
    transport, receiver = await turn.create_turn_endpoint(Receiver, server, user, password)
    inner = transport._TurnTransport__inner_protocol
    number = 0

    async def echo(size, limit=3):
        nonlocal number
        number += 1
        payload = (struct.pack("!Q", number) * (size // 8 + 1))[: max(size, 8)]
        transport.sendto(payload, peer)
        while True:
            data, address = await asyncio.wait_for(receiver.arrived.get(), limit)
            if data == payload:
                assert address == peer, address
                return

    relayed = inner.relayed_address
    for size in (8, 9, 160, 1200, 8000):
        await echo(size)
    if again:
        print("talking", flush=True)
        while not os.path.exists(again):
            try:
                await echo(160, 0.05)
            except asyncio.TimeoutError:
                pass
        for _ in range(20):
            await echo(160)
    for number_, address in list(inner.channel_to_peer.items()):
        await inner.channel_bind(number_, address)
    refresh = stun.Message(message_method=stun.Method.REFRESH, message_class=stun.Class.REQUEST)
    refresh.attributes["LIFETIME"] = 900
    response, _ = await inner.request_with_retry(refresh)
    assert response.attributes["LIFETIME"] == 900, response.attributes
    await echo(160)
    assert inner.relayed_address == relayed
    # `delete` takes any error for an end, so a Refresh with lifetime 0 is made here.
    refresh = stun.Message(message_method=stun.Method.REFRESH, message_class=stun.Class.REQUEST)
    refresh.attributes["LIFETIME"] = 0
    response, _ = await inner.request_with_retry(refresh)
    assert response.attributes["LIFETIME"] == 0, response.attributes
    transport.close()
    await asyncio.wait_for(receiver.ended, 10)


asyncio.run(main(*sys.argv[1:]))
