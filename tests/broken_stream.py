#!/usr/bin/env python3
"""Runs a program whose standard input gives the bytes of a file and then fails, as a connection that is reset does.

    broken_stream.py FILE PROGRAM ARGUMENT..
"""
import socket
import struct
import subprocess
import sys
import time

given = open(sys.argv[1], "rb").read()
listener = socket.create_server(("127.0.0.1", 0))
sender = socket.create_connection(listener.getsockname())
receiver, _ = listener.accept()
program = subprocess.Popen(sys.argv[2:], stdin=receiver)
receiver.close()
sender.sendall(given)
# What was sent is read first: a reset drops what still waits.
time.sleep(1)
sender.setsockopt(socket.SOL_SOCKET, socket.SO_LINGER, struct.pack("ii", 1, 0))
sender.close()
sys.exit(program.wait(30))
