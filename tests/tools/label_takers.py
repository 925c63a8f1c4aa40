"""GPL programs whose subroutines take bytes after a call, each in another way."""
import collections

# `is_sure`: whether the way is read from the lines alone. `takes`: what says it, or nothing if no option can.
Taker = collections.namedtuple('Taker', 'is_sure takes first second routine')

TAKERS = {
    'by FETCH': Taker(True, {}, 'BYTE 64,65', 'BYTE 66,67', """
S      FETCH @>8310
       FETCH @>8311
       RTN"""),
    'by adding to the return address': Taker(False, {'S': '2'}, 'BYTE 64,65', 'BYTE 66,67', """
S      DINCT @>8380
       RTN"""),
    'by a length': Taker(False, {'S': '1+@1'}, 'BYTE 3,65,66,67', 'BYTE 1,68', """
S      FETCH @>8311
L      FETCH @>8312
       ADD  @>8313,@>8312
       DEC  @>8311
       BR   L
       RTN"""),
    'up to a terminator': Taker(False, {'S': '0..00'}, 'BYTE 71,79,79,68,0', 'BYTE 66,89,0', """
S      FETCH @>8310
       ADD  @>8313,@>8310
       CZ   @>8310
       BR   S
       RTN"""),
    'by a table': Taker(False, {}, 'BYTE 2,64,65', 'BYTE 1,66', """
S      FETCH @>8310
       CASE @>8310
       BR   NONE
       BR   ONE
       BR   TWO
TWO    FETCH @>8311
ONE    FETCH @>8312
NONE   RTN"""),
    'by an index': Taker(False, {'S': '1+@1'}, "BYTE 9\n       TEXT 'GOOD BYE!'", 'BYTE 2,64,65', """
S      CLR  @>8302
       FETCH @>8303
       CLR  @>8304
       ST   @>8305,@>8373
       DST  @>8374,@>8300(@>8304)
       MOVE @>8302,V@0,G@0(@>8374)
       DADD @>8300(@>8304),@>8302
       RTN"""),
    'by a pointer': Taker(False, {'S': '2'}, 'BYTE 64,65', 'BYTE 66,67', """
S      DST  @>8310,>0080
       DINCT *>8310
       RTN"""),
    'by MOVE': Taker(False, {'S': '2'}, 'BYTE 64,65', 'BYTE 66,67', """
S      DST  @>8374,@>8380
       DINCT @>8374
       MOVE 2,@>8380,@>8374
       RTN"""),
    'by a MOVE of a length in a cell': Taker(False, {'S': '2'}, 'BYTE 64,65', 'BYTE 66,67', """
S      DST  @>8374,@>8380
       DINCT @>8374
       DST  @>8312,12
       MOVE @>8312,@>8376,@>836A
       DST  @>8380,@>8374
       DST  @>8312,0
       RTN"""),
    'by an exchange': Taker(False, {'S': '2'}, 'BYTE 64,65', 'BYTE 66,67', """
S      DST  @>8374,@>8380
       DINCT @>8374
       DEX  @>8374,@>8380
       RTN"""),
    'by an inner subroutine': Taker(False, {'S': '2', 'T': '0'}, 'BYTE 64,65', 'BYTE 66,67', """
S      CALL T
       RTN
T      DINCT @>8380
       RTN"""),
    'by an inner subroutine after FETCH': Taker(True, {}, 'BYTE 64,65', 'BYTE 66,67', """
S      FETCH @>8310
       CALL T
       BYTE 11
       FETCH @>8311
       RTN
T      FETCH @>8312
       RTN"""),
    'in two ways': Taker(False, {'S': '3'}, 'BYTE 64,65,66', 'BYTE 67,68,69', """
S      FETCH @>8310
       DINC @>8380
       FETCH @>8311
       RTN"""),
    'by the other stack': Taker(False, {'S': '2'}, 'BYTE 64,65', 'BYTE 66,67', """
S      ST   @>8372,>7F
       DST  @>8374,@>8380
       DINCT @>8374
       PUSH @>8374
       PUSH @>8375
       RTN"""),
    'by a stack that is moved': Taker(False, {'S': '2', 'M': '1'}, 'BYTE 64,65', 'BYTE 66,67', """
S      ST   @>8371,@>8373
       ST   @>8373,>74
       CALL M
       BYTE 11
       ST   @>8373,@>8371
       DINCT @>8380
       RTN
M      DINC @>8376
       RTN"""),
    'and drops its return address': Taker(False, {'S': '2', 'A': '2'}, 'BYTE 64,65', 'BYTE 66,67', """
S      CALL A
       BYTE 68,69
A      DECT @>8373
       DINCT @>8380
       RTN"""),
}


def source(taker):
    """A program that calls the subroutine twice."""
    return f"""\
START  CALL S
       {taker.first}
       INC  @>8340
       CALL S
       {taker.second}
       INC  @>8341
       DST  V@>0100,@>8340
       EXIT{taker.routine}
       END  START
""".encode()


NEVER_BACK = b"""\
START  ST   @>8340,1
       CALL OVER
       TEXT 'GAME OVER'
OVER   DST  @>8374,@>8380
       MOVE 9,V@0,G@0(@>8374)
       EXIT
       END  START
"""
