merge_sort([], []) :- !.
merge_sort([X], [X]) :- !.
merge_sort(L, S) :- halve(L, A, B), merge_sort(A, SA), merge_sort(B, SB), merge(SA, SB, S).
halve([], [], []).
halve([X], [X], []).
halve([X, Y|L], [X|A], [Y|B]) :- halve(L, A, B).
merge([], L, L) :- !.
merge(L, [], L) :- !.
merge([X|A], [Y|B], [X|S]) :- X =< Y, !, merge(A, [Y|B], S).
merge(A, [Y|B], [Y|S]) :- merge(A, B, S).
