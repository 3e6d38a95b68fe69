"""A server on 127.0.0.1 for the examples: prints its port, then a line for each connection.

With a count of bytes it sends so many and closes; else it answers one request with a page."""
import socket
import sys

count = int(sys.argv[1]) if len(sys.argv) > 1 else 0
listener = socket.create_server(("127.0.0.1", 0))
print(listener.getsockname()[1], flush=True)
while True:
    peer, _ = listener.accept()
    print("a connection", flush=True)
    with peer:
        try:
            if count:
                block = bytes(1 << 20)
                for _ in range(count >> 20):
                    peer.sendall(block)
            else:
                peer.recv(4096)
                peer.sendall(b"HTTP/1.0 200 OK\r\nContent-Length: 12\r\n\r\nhello, guest")
        except OSError:
            pass
