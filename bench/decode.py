"""decode.py HEX N REPS: decodes N times the bytes HEX as UTF-8, REPS times; the caller counts the instructions of two runs."""
import sys

text = bytes.fromhex(sys.argv[1]) * int(sys.argv[2])
for _ in range(int(sys.argv[3])):
    text.decode('utf-8')
