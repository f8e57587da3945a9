:- relation(r/1).
:- clauses(s/1).
p(1).
calls_unknown(X) :- X > 1, nosuch(X).
calls_unknown(0).
