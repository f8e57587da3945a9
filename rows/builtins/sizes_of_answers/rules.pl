% The limits of terms: 4,096 nodes, 4,096 canonical bytes, 255 arguments.
:- relation(p/1).
:- clauses(c/1).
:- clauses(call_me/1).
call_me(_).
mine(_).
list(0, []).
list(N, [0|T]) :- N > 0, M is N - 1, list(M, T).
