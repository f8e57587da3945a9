concat(A-B, B-C, A-C).
to_list(L-[], L).
flag(L, S) :- colours(L, R-W, W-B, B-[]), S = R.
colours([], R-R, W-W, B-B).
colours([red(X)|L], [red(X)|R]-R1, W, B) :- colours(L, R-R1, W, B).
colours([white(X)|L], R, [white(X)|W]-W1, B) :- colours(L, R, W-W1, B).
colours([blue(X)|L], R, W, [blue(X)|B]-B1) :- colours(L, R, W, B-B1).
queue(Q-Q).
put(X, F-[X|B], F-B).
get(X, [X|F]-B, F-B).
