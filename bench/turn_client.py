"""A TURN client over UDP and IPv4, with Python's standard library alone, for the scripts of this folder."""
import hashlib
import hmac
import os
import socket
import struct
import time
import zlib

COOKIE = 0x2112A442
ALLOCATE, REFRESH, SEND, DATA, CREATE_PERMISSION, CHANNEL_BIND = 3, 4, 6, 7, 8, 9
REQUEST, INDICATION, SUCCESS, ERROR = 0x000, 0x010, 0x100, 0x110
USERNAME, INTEGRITY, ERROR_CODE, CHANNEL_NUMBER, LIFETIME = 0x0006, 0x0008, 0x0009, 0x000C, 0x000D
PEER_ADDRESS, PAYLOAD, REALM, NONCE, RELAYED_ADDRESS = 0x0012, 0x0013, 0x0014, 0x0015, 0x0016
EVEN_PORT, TRANSPORT, RESERVATION_TOKEN, FINGERPRINT = 0x0018, 0x0019, 0x0022, 0x8028
UDP = b"\x11\0\0\0"


class Failed(Exception):
    """An answer that isn't the one asked for, or none."""


class Refused(Failed):
    """An error response."""

    def __init__(self, method, code):
        super().__init__(f"method {method}: {code}")
        self.code = code


def packed_address(address):
    ip, port = address
    value = struct.unpack("!I", socket.inet_aton(ip))[0]
    return struct.pack("!BBHI", 0, 1, port ^ (COOKIE >> 16), value ^ COOKIE)


def unpacked_address(value):
    _, _, port, ip = struct.unpack("!BBHI", value)
    return socket.inet_ntoa(struct.pack("!I", ip ^ COOKIE)), port ^ (COOKIE >> 16)


def message(kind, transaction, attributes, key=None, fingerprint=True):
    """Returns a message's bytes; signed if there is a key."""
    body = b"".join(struct.pack("!HH", type_, len(value)) + value + bytes(-len(value) % 4) for type_, value in attributes)

    def head(more):
        return struct.pack("!HHI", kind, len(body) + more, COOKIE) + transaction

    if key is not None:
        body += struct.pack("!HH", INTEGRITY, 20) + hmac.new(key, head(24) + body, hashlib.sha1).digest()
    if fingerprint:
        crc = zlib.crc32(head(8) + body) ^ 0x5354554E
        body += struct.pack("!HHI", FINGERPRINT, 4, crc)
    return head(0) + body


def parsed(datagram):
    """Returns a message's kind, transaction id and attributes (the first of each type), or None."""
    if len(datagram) < 20 or datagram[0] & 0xC0:
        return None
    kind, length, cookie = struct.unpack("!HHI", datagram[:8])
    if cookie != COOKIE or length != len(datagram) - 20:
        return None
    attributes, at = {}, 20
    while at + 4 <= len(datagram):
        type_, size = struct.unpack("!HH", datagram[at : at + 4])
        attributes.setdefault(type_, datagram[at + 4 : at + 4 + size])
        at += 4 + size + -size % 4
    return kind, datagram[8:20], attributes


def channel_data(number, payload):
    return struct.pack("!HH", number, len(payload)) + payload


def code_of(attributes):
    value = attributes.get(ERROR_CODE, bytes(4))
    return value[2] * 100 + value[3]


class Client:
    """One five-tuple. What arrives and is no answer to the request under way waits in `arrived`."""

    # After how many seconds a request is sent again. The last one is how long the last answer is waited for.
    waits = (0.5, 1, 2, 4)

    def __init__(self, server, user, password, local="127.0.0.1"):
        self.socket = socket.socket(socket.AF_INET, socket.SOCK_DGRAM)
        self.socket.bind((local, 0))
        self.socket.connect(server)
        self.user, self.password = user, password
        self.realm = self.nonce = self.key = None
        self.arrived = []
        self.relayed = self.token = None
        self.allocate_request = self.allocate_response = None

    def close(self):
        self.socket.close()

    def learn(self, attributes):
        """Takes realm and nonce of a 401 or 438."""
        self.realm, self.nonce = attributes[REALM], attributes[NONCE]
        words = b":".join([self.user.encode(), self.realm, self.password.encode()])
        self.key = hashlib.md5(words).digest()

    def signed(self, method, attributes):
        """Returns a request's bytes, signed once realm and nonce are known."""
        if self.key is None:
            return message(method, os.urandom(12), attributes)
        names = [(USERNAME, self.user.encode()), (REALM, self.realm), (NONCE, self.nonce)]
        return message(method, os.urandom(12), attributes + names, self.key)

    def exchange(self, request):
        """Sends the bytes, again after each wait but the last, and returns the response's bytes."""
        for seconds in self.waits:
            self.send(request)
            until = time.monotonic() + seconds
            while (left := until - time.monotonic()) > 0:
                self.socket.settimeout(left)
                try:
                    datagram = self.socket.recv(65536)
                except (TimeoutError, socket.timeout):
                    break
                except ConnectionError:
                    continue
                if datagram[8:20] == request[8:20] and datagram[0] & 0xC0 == 0:
                    return datagram
                self.arrived.append(datagram)
        raise Failed("no answer")

    def ask(self, method, attributes):
        """Makes a request, anew if the answer is 401 or 438, and returns request, response and its attributes."""
        for _ in range(3):
            request = self.signed(method, attributes)
            response = self.exchange(request)
            kind, _, found = parsed(response)
            if kind == method | SUCCESS:
                return request, response, found
            if code_of(found) == 438 or code_of(found) == 401 and self.key is None:
                self.learn(found)
                continue
            break
        raise Refused(method, code_of(found))

    def allocate(self, lifetime=600, more=()):
        attributes = [(TRANSPORT, UDP), (LIFETIME, struct.pack("!I", lifetime)), *more]
        self.allocate_request, self.allocate_response, found = self.ask(ALLOCATE, attributes)
        self.relayed = unpacked_address(found[RELAYED_ADDRESS])
        self.token = found.get(RESERVATION_TOKEN)
        return self.relayed

    def allocate_pair(self):
        """Allocates an even port. The next one is reserved for 30 s for who names `token`."""
        return self.allocate(more=[(EVEN_PORT, b"\x80")])

    def allocate_reserved(self, token):
        return self.allocate(more=[(RESERVATION_TOKEN, token)])

    def refresh(self, lifetime=600):
        _, _, found = self.ask(REFRESH, [(LIFETIME, struct.pack("!I", lifetime))])
        return struct.unpack("!I", found[LIFETIME])[0]

    def permit(self, address):
        self.ask(CREATE_PERMISSION, [(PEER_ADDRESS, packed_address(address))])

    def bind(self, number, address):
        self.ask(CHANNEL_BIND, [(CHANNEL_NUMBER, struct.pack("!HH", number, 0)), (PEER_ADDRESS, packed_address(address))])

    def send(self, datagram):
        try:
            self.socket.send(datagram)
        except ConnectionError:
            pass  # the report of an earlier datagram that found no server

    def send_to_channel(self, number, payload):
        self.send(channel_data(number, payload))

    def send_to(self, address, payload):
        attributes = [(PEER_ADDRESS, packed_address(address)), (PAYLOAD, payload)]
        self.send(message(SEND | INDICATION, os.urandom(12), attributes))

    def receive(self, seconds):
        """Returns the next datagram as (channel or peer, payload), or None after some seconds."""
        until = time.monotonic() + seconds
        while True:
            if self.arrived:
                datagram = self.arrived.pop(0)
            else:
                left = until - time.monotonic()
                if left <= 0:
                    return None
                self.socket.settimeout(left)
                try:
                    datagram = self.socket.recv(65536)
                except (TimeoutError, socket.timeout):
                    return None
                except ConnectionError:
                    continue
            if len(datagram) >= 4 and datagram[0] & 0xC0 == 0x40:
                number, size = struct.unpack("!HH", datagram[:4])
                return number, datagram[4 : 4 + size]
            found = parsed(datagram)
            if found and found[0] == DATA | INDICATION:
                return unpacked_address(found[2][PEER_ADDRESS]), found[2][PAYLOAD]
