% The rows of stored clauses: their order, bodies that are variables, cuts in them, and what is gone.
:- clauses(c/1).
:- clauses(g/2).
:- clauses(v/1).
c(0). c(1).
g(X, Y) :- c(X), !, Y = found.
g(_, none).
v(G) :- G.
