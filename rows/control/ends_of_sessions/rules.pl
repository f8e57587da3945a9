:- relation(p/1).
:- relation(q/1).
p(1).
