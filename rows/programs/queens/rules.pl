queens(N, Qs) :- numbers(1, N, Ns), place(Ns, [], Qs).
numbers(N, N, [N]) :- !.
numbers(I, N, [I|L]) :- I < N, J is I + 1, numbers(J, N, L).
place([], Qs, Qs).
place(Left, Safe, Qs) :- select(Q, Left, Rest), \+ attacked(Q, 1, Safe), place(Rest, [Q|Safe], Qs).
attacked(Q, D, [R|_]) :- ( Q =:= R + D ; Q =:= R - D ), !.
attacked(Q, D, [_|Rs]) :- E is D + 1, attacked(Q, E, Rs).
select(X, [X|L], L).
select(X, [Y|L], [Y|M]) :- select(X, L, M).
count([], 0).
count([_|L], N) :- count(L, M), N is M + 1.
