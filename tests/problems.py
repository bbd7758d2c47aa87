"""Small problems that several scripts ask about, their certificates, and what `solve --cert` answers."""

# White's two stones with liberties on both sides: Black to move wins.
SPLIT = b"(;SZ[4:1]AW[ba][da]PL[B]TR[ba])"
SPLIT_KILLED = b"killed !ca?aa.--!aa.;"
SPLIT_ANSWER = b"1 killed ca\n" + SPLIT_KILLED + b"\n"

# White plays behind Black, who may not repeat the board before that.
REPEATED = b"(;SZ[4:1]AW[ba];B[ca];W[da]TR[ba])"
REPEATED_LIVES = b"lives ?--!--.;"
REPEATED_ANSWER = b"1 lives\n" + REPEATED_LIVES + b"\n"

# White's stone alone, which lives.
ALONE = b"(;SZ[4:1]AW[ba]PL[B]TR[ba])"

# Black takes the stone at once.
TAKEN = b"(;SZ[2:1]AW[ba]PL[B]TR[ba])"

# Black kills by a second stone.
SECOND = b"(;SZ[5:1]AW[aa];B[ca]TR[ca])"

# The strategy comes to one position by two orders of captures.
ORDERS = b"(;SZ[5:1]AB[aa];W[da]TR[da])"
ORDERS_LIVES = b"lives ?ba!--?ca!ba=?--!--.;--.;ca!ba*0--!--.;"
# A certificate in which more parts have names.
ORDERS_FIT = b"lives ?ba!--=?ca=!ba=?--!--.;--.;ca=!ba*0--!--.;"

# The history of a part forbids it where its name stands.
UNFIT = b"(;SZ[5:1]AB[aa];W[ca]TR[ca])"
UNFIT_KILLED = b"killed =!da=?ba=!aa.ea=!ba=?aa=!ba=?da.--=!da.;ba=!da=?aa.--!aa.;da=!ba.--=!ba*2;--=!ba.;"

# A dense board without squares: of random ones, the one for which df-pn's proofs took most memory, far more than 30 MB.
DENSE = b"(;SZ[7]AB[ba][ca][cb][cd][df][eb][gd]AW[bf][ce][cf][db][ee][ef][ge][gg]PL[B]TR[ef])"

# A lone stone of White's on an open board.
OPEN_BOARD = b"(;SZ[5]AW[cc]PL[B]TR[cc])"
