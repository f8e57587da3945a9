% Terms of 2 to the 61st nodes, told by what looks at their beginning alone; smaller ones for what walks them, which passes a
% part as often as it is shared.
:- relation(p/1).
:- clauses(c/1).
d(0, a).
d(N, f(T, T)) :- N > 0, M is N - 1, d(M, T).
same(T, T).
