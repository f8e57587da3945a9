% The operations of row 9: each call sees the tuples that were there when it began.
:- relation(p/1).
p(1).
