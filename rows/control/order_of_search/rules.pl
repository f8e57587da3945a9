% Depth first, from the left; a call tries what was there when it began.
:- relation(p/1).
:- clauses(c/1).
p(1). p(2).
c(1). c(2).
edge(a, b). edge(a, c). edge(b, d). edge(c, d). edge(d, e).
path(X, X, [X]).
path(X, Z, [X|P]) :- edge(X, Y), path(Y, Z, P).
