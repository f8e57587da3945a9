% Terms of 20,000 levels and lists of 20,000 elements.
deep(0, a).
deep(N, f(T)) :- N > 0, M is N - 1, deep(M, T).
open(0, _).
open(N, f(T)) :- N > 0, M is N - 1, open(M, T).
left(0, a).
left(N, T) :- left(N, a, T).
left(0, T, T).
left(N, A, T) :- N > 0, M is N - 1, left(M, g(A, N), T).
list(0, []).
list(N, [N|L]) :- N > 0, M is N - 1, list(M, L).
