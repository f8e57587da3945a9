:- clauses(known/2).
fib(0, 0).
fib(1, 1).
fib(N, F) :- N > 1, A is N - 1, B is N - 2, fib(A, G), fib(B, H), F is G + H.
fast(N, F) :- fast(N, 0, 1, F).
fast(0, F, _, F) :- !.
fast(N, A, B, F) :- M is N - 1, C is A + B, fast(M, B, C, F).
memo(N, F) :- known(N, F), !.
memo(N, N) :- N < 2, !.
memo(N, F) :- A is N - 1, B is N - 2, memo(A, G), memo(B, H), F is G + H, asserta(known(N, F)).
