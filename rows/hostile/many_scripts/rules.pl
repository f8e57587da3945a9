:- relation(p/1).
:- clauses(c/1).
next(N) :- findall(X, p(X), L), count(L, N).
count([], 0).
count([_|L], N) :- count(L, M), N is M + 1.
