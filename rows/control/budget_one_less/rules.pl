% What each goal needs: see the table of inferences in docs/LANGUAGE.md. Script k has the budget that its goal needs, less one.
:- relation(r/1).
:- clauses(c/1).
r(1). r(2).
c(1).
c(X) :- X = 2.
p(1). p(2).
s(X) :- r(X), X > 1.
n(0).
n(N) :- N > 0, M is N - 1, n(M).
