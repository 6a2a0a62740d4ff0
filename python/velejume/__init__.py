"""Haplotype phasing whose answer is proved to be the answer.

>>> import velejume
>>> block = velejume.block_of("0:4 . 1:3 / 0:5 0:5 0:5 / 1:5 1:5 1:5")
>>> print(velejume.phase(block))
cost 3
flips 1
sides 001
hap1 000
hap2 111
>>> answer = velejume.answer_of(cost=0, sides="001", haplotypes=("000", "111"))
>>> print(velejume.judge(block, answer))
verdict 54 at 0
stated cost not the weight of disagreeing entries

`phase` takes a fragment block, as bytes, and gives an `Answer` or raises `Refused`, and so do `phase_margins`, which also says how sure each letter
is, and `phase_heterozygous`, for haplotypes that differ at every column; `judge` gives a `Verdict` on an answer of another program; `convert` turns a
block of version 1 into one of version 2 without its reads without cells. `block_of` and `matrix_of` turn the matrix notation into a block and back,
`answer_of` makes an answer block of its parts.

The work is done by the proved library, libvelejume.so, through its C names. It is looked for where the environment variable VELEJUME_LIBRARY
says, and if that is not set, beside this module, in the repository that this module is part of, and where the system has its libraries.
"""

from ._answer import Answer, answer_of
from ._calls import convert, judge, phase, phase_heterozygous, phase_margins
from ._matrix import block_of, matrix_of
from ._refused import Refused
from ._verdict import Verdict

__all__ = ["Answer", "Refused", "Verdict", "answer_of", "block_of", "convert", "judge", "matrix_of", "phase", "phase_heterozygous", "phase_margins"]

# these are named as they are used, in tracebacks too
for _each in (Answer, Refused, Verdict):
    _each.__module__ = __name__
del _each
