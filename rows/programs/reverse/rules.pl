append([], L, L).
append([X|L], M, [X|N]) :- append(L, M, N).
naive([], []).
naive([X|L], R) :- naive(L, M), append(M, [X], R).
reverse(L, R) :- reverse(L, [], R).
reverse([], R, R).
reverse([X|L], A, R) :- reverse(L, [X|A], R).
palindrome(L) :- reverse(L, L).
