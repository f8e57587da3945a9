% Called terms of up to 4,096 nodes, nested to the left and to the right.
left(0, true).
left(N, ( G, true )) :- N > 0, M is N - 1, left(M, G).
right(0, true).
right(N, ( true, G )) :- N > 0, M is N - 1, right(M, G).
or_left(0, fail).
or_left(N, ( G ; true )) :- N > 0, M is N - 1, or_left(M, G).
or_right(0, fail).
or_right(N, ( true ; G )) :- N > 0, M is N - 1, or_right(M, G).
then_left(0, true).
then_left(N, ( G -> true )) :- N > 0, M is N - 1, then_left(M, G).
then_right(0, true).
then_right(N, ( true -> G )) :- N > 0, M is N - 1, then_right(M, G).
else_left(0, fail).
else_left(N, ( ( G -> true ; true ) )) :- N > 0, M is N - 1, else_left(M, G).
one(_, 0, true).
one(F, N, G) :- N > 0, M is N - 1, one(F, M, H), G =.. [F, H].
catches(0, throw(b)).
catches(N, catch(G, no, true)) :- N > 0, M is N - 1, catches(M, G).
finds(0, true).
finds(N, findall(x, G, _)) :- N > 0, M is N - 1, finds(M, G).
cuts(0, !).
cuts(N, ( G, ! )) :- N > 0, M is N - 1, cuts(M, G).
bad_left(0, 1).
bad_left(N, ( G, true )) :- N > 0, M is N - 1, bad_left(M, G).
open_left(0, _).
open_left(N, ( G, true )) :- N > 0, M is N - 1, open_left(M, G).
count(G, N) :- findall(x, G, L), length(L, N).
length([], 0).
length([_|L], N) :- length(L, M), N is M + 1.
