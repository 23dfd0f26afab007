"""Sends back what comes to a UDP port of 127.0.0.1 and to the next one. The first line of its output is the first port."""
import select
import socket


def pair():
    """Two sockets of which the second has the port after the first one's."""
    while True:
        first, second = (socket.socket(socket.AF_INET, socket.SOCK_DGRAM) for _ in range(2))
        first.bind(("127.0.0.1", 0))
        try:
            second.bind(("127.0.0.1", first.getsockname()[1] + 1))
        except (OSError, OverflowError):
            first.close()
            second.close()
            continue
        return first, second


echoes = pair()
print(echoes[0].getsockname()[1], flush=True)
while True:
    for echo in select.select(echoes, [], [])[0]:
        payload, sender = echo.recvfrom(65536)
        echo.sendto(payload, sender)
