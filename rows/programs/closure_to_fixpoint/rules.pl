% Forward chaining: tuples are put in until nothing new comes.
:- relation(edge/2, [1]).
:- relation(path/2, [1, 2]).
edge(a, b). edge(b, c). edge(c, d).
step :- edge(X, Y), \+ path(X, Y), insert_tuple(path(X, Y)), fail.
step :- path(X, Y), edge(Y, Z), \+ path(X, Z), insert_tuple(path(X, Z)), fail.
step.
count(N) :- findall(x, path(_, _), L), length(L, N).
fix :- count(N), step, count(M), ( N =:= M -> true ; fix ).
length([], 0).
length([_|L], N) :- length(L, M), N is M + 1.
