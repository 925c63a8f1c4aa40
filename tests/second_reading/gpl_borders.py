"""Steps at borders: of the visible cells, of MOVE, of the stacks and of the character buffer."""

# steps that stop, and some that nearly do
STOPS = (
    ' BYTE >0F', ' BYTE >98,>00', ' ST @>83C2,1', ' DST @>83C1,1', ' MUL @>83C1,2', ' DDIV @>83BF,1', ' ST *>837C,1',
    ' CLR V*>837C', ' ST @>8300,@>8300(@>83C1)', ' CLR *>83C1', ' MOVE 16385,V@0,V@0', ' MOVE 9,R@0,G@0',
    ' MOVE 0,R@9,G@0', ' MOVE 195,@>8300,V@0', ' MOVE 1,@>83C2,G@0', ' MOVE 0,@>83C3,G@0', ' MOVE 0,V@0,G@0(@>83C1)',
    ' MOVE @>83C1,V@0,V@0', ' EXIT', ' BYTE >C2,0,0', ' DINC V*>83C1', ' INC *>8320(@>83C1)', ' FETCH @>83C2',
    ' PUSH @>83C2', ' MOVE 2,V@0,@>83C1', ' MOVE @>8300,R@8,G@0',
)
# steps at the borders of what is visible and of MOVE, which are done
DONE = (
    ' MOVE 0,@>83C2,G@0', ' MOVE 0,R@8,G@0', ' MOVE 8,R@0,G@>7FFC', ' MOVE 194,V@>3FFF,@>8300', ' MOVE 16384,V@1,V@0',
    ' MOVE 34,@>83A0,V@>3FF0', ' DST @>83C0,>8000', ' MUL @>83C0,3', ' DMUL @>83BE,3', ' DDIV @>83BE,3',
    ' DEX @>83C0,@>8340', ' CLR V*>837B', ' ST V@0(@>83C0),1', ' FETCH V@>3FFF', ' PUSH @>8372', ' PUSH @>8373',
    ' DINC V@>3FFF', ' DCLR @>837C', ' MUL V@>3FFE,>FF', ' DDIV V@>3FFD,>7FFF', ' DADD @>837B,>0101',
    ' ST @>837C,>FF', ' DNEG @>837C', ' EX @>837C,@>837D', ' MOVE 4,@>8341,@>8340', ' MOVE 4,@>8340,@>8341',
    ' MOVE 4,V@1,V@0', ' MOVE 3,@>837C,@>837B', ' MOVE 1,@>837D,@>837D', ' ST *>8320,*>8322', ' RAND 0', ' RAND 255',
    ' SRA @>8340,15', ' DSRC @>8340,16', ' SRC @>8340,8', ' SLL @>8340,9',
)
# stack pointers at the borders: in the cells, at their own cells, past the cells, and where a byte wraps
CALL_STACKS = (0xBE, 0xFE, 0xFE, 0x00, 0x40, 0xBD, 0xBF, 0x71, 0x70, 0x6F)
DATA_STACKS = (0xC0, 0xFF, 0xFF, 0x40, 0x71, 0x72, 0x7C, 0xC1)
# stores at the character buffer, and steps beside it
AT_BUFFER = (' ST @>837D,>41', ' DST @>837C,>2041', ' DINC @>837D', ' MOVE 3,@>837B,G@>6000', ' RAND 5',
             ' EX @>837D,@>837E', ' NEG @>837D', ' MUL @>837C,3', ' DIV @>837D,3', ' SLL @>837D,0')
# a step with what it needs before it
PAIRS = (
    (' ST @>8340,>81', ' SLL @>8340,9'), (' ST @>8340,>81', ' SRL @>8340,8'), (' ST @>8340,>81', ' SRC @>8340,9'),
    (' DST @>8340,>0102', ' DST @>8342,>0304', ' DEX @>8340,@>8341'), (' DST V@5,>1234', ' DEX V@5,V@6'),
    (' DST V@>3FFF,>1234', ' DEX V@0,V@>3FFF'), (' DST @>8330,>2000', ' MOVE 4,V@0,G@>7FFE(@>8330)'),
    (' DST @>8330,2', ' MOVE 4,V@0,G@>7FFE(@>8330)'),
    (' DST @>8330,>FFFF', ' MOVE 2,R@6,G@>7FFE', ' MOVE 3,V@0,G@0(@>8330)'),
    (' ST @>8373,>80', ' DST @>8380,>7FFF', ' FETCH @>8340', ' DST @>8342,@>8380', ' ST @>8373,>7E'),
    (' ST @>8373,>80', ' DST @>8380,>6000', ' FETCH @>8381', ' DST @>8342,@>8380', ' ST @>8373,>7E'),
    (' ST @>8373,>80', ' DST @>8380,>FFFF', ' FETCH @>8373', ' ST @>8373,>7E'), (' ST @>8372,>71', ' PUSH @>8340'),
    (' ST @>8372,>71', ' PUSH @>8372', ' ST @>8372,>9F'), (' ST @>8372,>7C', ' PUSH @>8340', ' ST @>8372,>9F'),
    (' ST @>837C,>FF', ' DIV @>8340,0', ' DIV @>8340,>FF', ' ST @>837C,0', ' DIV @>8340,0'),
    (' DST @>837B,0', ' ST @>8300,5', ' INC *>837B'),
    (' DST @>8320,>FFFF', ' DST @>8330,>41', ' ST *>8320(@>8330),7'),
    (' DST @>8330,>FFFF', ' DST @>8341(@>8330),>0102'), (' DST @>8330,>0041', ' ST @>82FF(@>8330),>33'),
    (' DST @>8320,>3FFF', ' DST V*>8320,>0506', ' DINC V*>8320'), (' DST @>8320,>7C', ' ST *>8320,>7F'),
    (' DST @>8320,>7D', ' ST *>8320,>7F'), (' ST @>8340,>80', ' ABS @>8340'), (' ST @>8340,>80', ' NEG @>8340'),
    (' ST @>8340,0', ' NEG @>8340'), (' DST @>8340,>8000', ' DABS @>8340'), (' ST @>8340,>7F', ' INC @>8340'),
    (' DST @>8340,>7FFF', ' DINCT @>8340'), (' ST @>8340,>81', ' DECT @>8340'), (' DST @>8340,>8000', ' DDEC @>8340'),
)
# steps that lead away, or stop by one of two reasons
LAST = (
    (' ST @>8373,>C1', ' FETCH @>83C2'), (' ST @>8373,>C1', ' FETCH @>83C1'), (' ST @>8372,>C1', ' PUSH @>83C2'),
    (' ST @>8372,>C1', ' PUSH @>83C1'), (' ST @>8372,>C0', ' PUSH @>83C1'), (' ST @>8373,>C0', ' CALL 0'),
    (' ST @>8373,>BF', ' CALL 0'), (' ST @>8373,>BE', ' CALL START'), (' ST @>8373,>70', ' CALL START'),
    (' ST @>8373,>71', ' CALL START'), (' ST @>8373,>6F', ' CALL START'), (' ST @>8373,>FE', ' CALL START'),
    (' ST @>8373,>FF', ' CALL START'), (' ST @>8373,>C1', ' RTN'), (' ST @>8373,>C0', ' RTNC'),
    (' ST @>8373,0', ' RTN'), (' ST @>8373,>72', ' RTN'), (' ST @>8373,1', ' RTNC'),
    (' DST @>8340,>0FFF', ' DCASE @>8340'), (' DST @>8340,>1000', ' DCASE @>8340'),
    (' DST @>8340,>8000', ' DCASE @>8340'), (' ST @>8340,>FF', ' CASE @>8340'), (' B >1FFF',), (' B >FFFF',),
    (' CALL >7FFF',), (' DST @>8330,16385', ' MOVE @>8330,@>83C2,G@0'), (' DST @>8330,9', ' MOVE @>8330,R@0,G@0'),
    (' DST @>8330,16385', ' MOVE @>8330,R@8,G@0'), (' MOVE 9,R@255,G@0',), (' MOVE 0,R@9,G@0',), (' MOVE 0,R@8,G@0',),
    (' MOVE 16384,@>8300,G@0',), (' MOVE 1,@>83C2,@>83C2',), (' MOVE 0,@>83C2,@>83C2',), (' MOVE 0,@>8300,@>83C3',),
    (' DST @>8330,>FF00', ' MOVE 1,@>8300,@>8340(@>8330)'), (' DST @>8320,>FF7D', ' ST *>8320,1'),
    (' DST @>8320,>C1', ' DST *>8320,1'), (' DST @>8320,>C1', ' ST *>8320,1'), (' DST @>8320,>C2', ' ST *>8320,1'),
    (' ST *>83C0,1',), (' ST *>83C1,1',), (' ST @>8300(@>83C1),1',), (' ST V*>837C(@>83C1),1',), (' CZ *>837C',),
)
