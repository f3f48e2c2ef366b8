"""Listens at an address that answers nothing: its queue of connections is full, so the system drops whatever asks for one more. Prints the
port once that is so, and stays until it is killed."""

import socket
import time


def is_silent(address: tuple[str, int]) -> bool:
    """Whether a connect is neither taken nor refused within a second."""
    with socket.socket() as asking:
        asking.settimeout(1)
        try:
            asking.connect(address)
        except TimeoutError:
            return True
        return False


def main() -> None:
    listener = socket.socket()
    listener.bind(("127.0.0.1", 0))
    listener.listen(0)
    address = listener.getsockname()
    waiting = []
    for _ in range(4):
        waiting.append(socket.socket())
        waiting[-1].setblocking(False)
        waiting[-1].connect_ex(address)
    if not is_silent(address):
        raise SystemExit("silent.py: this system answers although the queue is full")
    print(address[1], flush=True)
    time.sleep(86400)


main()
