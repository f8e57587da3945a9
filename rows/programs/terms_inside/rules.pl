occurrences(X, T, 1) :- X == T, !.
occurrences(X, T, N) :- compound(T), !, T =.. [_|Args], each(X, Args, N).
occurrences(_, _, 0).
each(_, [], 0).
each(X, [A|As], N) :- occurrences(X, A, M), each(X, As, K), N is M + K.
substitute(Old, New, Old, New) :- !.
substitute(Old, New, T, U) :- compound(T), !, functor(T, F, N), functor(U, F, N), arguments(N, Old, New, T, U).
substitute(_, _, T, T).
arguments(0, _, _, _, _) :- !.
arguments(N, Old, New, T, U) :- arg(N, T, A), substitute(Old, New, A, B), arg(N, U, B), M is N - 1, arguments(M, Old, New, T, U).
subterm(T, T).
subterm(S, T) :- compound(T), T =.. [_|Args], inside(S, Args).
inside(S, [A|_]) :- subterm(S, A).
inside(S, [_|As]) :- inside(S, As).
size(T, 1) :- \+ compound(T), !.
size(T, N) :- T =.. [_|Args], sizes(Args, M), N is M + 1.
sizes([], 0).
sizes([A|As], N) :- size(A, M), sizes(As, K), N is M + K.
