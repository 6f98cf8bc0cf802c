"""The sentence of PROVED.md about the system's poll, on the kernel that runs. The flags are those that mio registers."""
import contextlib
import select
import socket
import unittest

READING = select.EPOLLET | select.EPOLLIN | select.EPOLLRDHUP


def reset(peer):
    peer.setsockopt(socket.SOL_SOCKET, socket.SO_LINGER, b"\1\0\0\0\0\0\0\0")
    peer.close()


class Poll(unittest.TestCase):
    def watched(self, flags=READING):
        """A poll, a stream that it watches and that does not block, and the stream's peer."""
        with socket.create_server(("127.0.0.1", 0)) as listener:
            peer = socket.create_connection(listener.getsockname())
            own, poll = listener.accept()[0], select.epoll()
        for each in own, peer, poll:
            self.addCleanup(each.close)
        own.setblocking(False)
        poll.register(own, flags)
        return poll, own, peer

    def is_reported(self, poll, flags=select.EPOLLIN):
        """Once, and with these flags."""
        self.assertEqual([event & flags for _, event in poll.poll(10)], [flags])
        self.assertEqual(poll.poll(0.02), [])

    def sum_until_blocked(self, call):
        with contextlib.suppress(BlockingIOError):
            done = 0
            while True:
                done += call()
        return done

    def test_what_comes_after_the_poll_was_asked(self):
        """No call has blocked: so end nodes that are registered."""
        for act in (lambda peer: peer.send(b"one"), lambda peer: peer.shutdown(socket.SHUT_WR), socket.socket.close, reset):
            poll, _, peer = self.watched()
            act(peer)
            self.is_reported(poll)

    def test_what_is_there_when_the_poll_is_asked(self):
        poll, own, peer = self.watched()
        peer.send(b"one")
        self.is_reported(poll)
        self.assertEqual((own.recv(1), poll.poll(0.02)), (b"o", []), "bytes that are left are no event")
        poll.modify(own, READING)
        self.is_reported(poll)

    def test_what_comes_after_a_read_that_would_have_blocked(self):
        poll, own, peer = self.watched()
        for act in (lambda: peer.send(b"one"), lambda: peer.send(b"two"), peer.close):
            self.sum_until_blocked(lambda: len(own.recv(100)))
            act()
            self.is_reported(poll)

    def test_room_after_a_write_that_would_have_blocked(self):
        """It is reported later than a write would succeed: the event is the kernel's."""
        poll, own, peer = self.watched(READING | select.EPOLLOUT)
        self.is_reported(poll, select.EPOLLOUT)
        left, done = self.sum_until_blocked(lambda: own.send(bytes(65536))), 0
        while not done:
            left -= len(peer.recv(4096))
            with contextlib.suppress(BlockingIOError):
                done = own.send(b"!")
        self.assertEqual(poll.poll(0), [])
        left += done + self.sum_until_blocked(lambda: own.send(bytes(65536)))
        while left:
            left -= len(peer.recv(65536))
        self.is_reported(poll, select.EPOLLOUT)
