"""The ports at which a tool has a program listen."""
import re
import socket

from lib.http import HOST

MOST = 65_535
USUAL = 4318  # OTLP Specification, "OTLP/HTTP Default Port"


def port_in(word):
    """The port that a word names, or nothing."""
    port = int(word) if re.fullmatch("[0-9]{1,9}", word) else 0
    return port if 0 < port <= MOST else None


def other_than(port):
    """A port to take in its place."""
    return port + 1 if port < MOST else USUAL


def why_taken(port):
    """Why a program can't listen at a port, or nothing."""
    with socket.socket() as taken:
        taken.setsockopt(socket.SOL_SOCKET, socket.SO_REUSEADDR, 1)
        try:
            taken.bind((HOST, port))
        except OSError as error:
            return f"port {port} of {HOST} can't be had: {error.strerror.lower()}"
    return None
