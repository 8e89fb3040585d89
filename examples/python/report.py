"""Writes the report of the tree that is read, as the report program does: report.py LIBRARY [WORD ..] <TREE"""

import ctypes
import os
import sys


class Answer(ctypes.Structure):
    _fields_ = [("status", ctypes.c_uint32), ("report_len", ctypes.c_size_t), ("message_len", ctypes.c_size_t)]


def load(path):
    call = ctypes.CDLL(path).bolgwyr_report
    call.argtypes = [ctypes.c_char_p, ctypes.c_size_t] * 4
    call.restype = Answer
    return call


def report(call, tree, words=(), size=None):
    """The status, the report and the line on errors. The report's buffer begins with `size` bytes."""
    lines = b"\n".join(map(os.fsencode, words))
    message = ctypes.create_string_buffer(128)
    size = size or len(tree) + 1
    while True:
        buffer = ctypes.create_string_buffer(size)
        answer = call(tree, len(tree), lines, len(lines), buffer, size, message, len(message))
        if answer.report_len <= size:
            return answer.status, buffer.raw[: answer.report_len], message.raw[: answer.message_len]
        size = answer.report_len


if __name__ == "__main__":
    status, text, line = report(load(sys.argv[1]), sys.stdin.buffer.read(), sys.argv[2:])
    sys.stdout.buffer.write(text)
    sys.stderr.buffer.write(line)
    sys.exit(status)
