# Reads cue lines through the shared library: the microphone, the loudspeaker and the gain in tenths of a decibel, or a
# refusal's number, with 11 the word that is at fault (0: the line is over 80 characters).
import ctypes as c
import sys


class Cue(c.Structure):  # strlib_cue of include/strlib.h
    _fields_ = [("refusal", c.c_uint8), ("word", c.c_uint8)]
    _fields_ += [("microphone", c.c_size_t), ("loudspeaker", c.c_size_t), ("gain", c.c_int64)]


read_cue = c.CDLL(sys.argv[1]).strlib_read_cue
read_cue.argtypes, read_cue.restype = [c.c_char_p, c.c_size_t, c.c_size_t, c.c_size_t], Cue
for line in sys.stdin.buffer:
    line = line.removesuffix(b"\n")
    cue = read_cue(line, len(line), 64, 128)
    if cue.refusal == 11:
        print(f"refused 11 word {cue.word}")
    elif cue.refusal:
        print(f"refused {cue.refusal}")
    else:
        print(f"ok {cue.microphone} {cue.loudspeaker} {cue.gain}")
