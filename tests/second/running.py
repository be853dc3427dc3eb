"""The running digest, said a second time, for any state that is lent."""
import base64
from struct import pack
from typing import NamedTuple

import model
from sha512 import BLOCK_SIZE, INITIAL, finished, hashed


class State(NamedTuple):
    words: tuple  # the hash value after the whole blocks
    block: bytes  # the bytes that wait for the next one; behind them any others
    total: int  # of all bytes; it tells how many wait

    def waiting(self):
        return self.block[:self.total % BLOCK_SIZE]

    def laid(self):
        """As it stands in memory."""
        return pack("<8Q128sQ", *self.words, self.block, self.total)


BEGUN = State(INITIAL, bytes(BLOCK_SIZE), 0)
STATE_SIZE = len(BEGUN.laid())


def feed(state, part):
    """Refusal, value, and the state afterwards."""
    refusal, value = model.fed(state.total, part)
    if refusal != 0:
        return refusal, value, state
    words, rest = hashed(state.words, state.waiting() + part)
    return *model.ACCEPTED, State(words, rest.ljust(BLOCK_SIZE, b"\0"), state.total + len(part))


def finish(state, out, place):
    """Refusal, value, length, and the buffer afterwards. The state stays."""
    refusal, value = model.finished(state.total, len(out), place)
    if refusal != 0:
        return refusal, value, 0, out
    text = b"ga4gh:SQ." + base64.urlsafe_b64encode(finished(state.words, state.waiting(), state.total)[:24])
    return 0, 0, len(text), model.written(out, place, text)
