% Jugs of 4 and 3: breadth first, for 2 in the first.
solve(P) :- search([[j(0, 0)]], [j(0, 0)], R), reverse(R, [], P).
search([[j(2, Y)|R]|_], _, [j(2, Y)|R]) :- !.
search([[S|R]|Paths], Seen, P) :- findall(T, ( pour(S, T), \+ member(T, Seen) ), Ts), fresh(Ts, Seen, Us, More), extend(Us, [S|R], New), append(Paths, New, All), search(All, More, P).
fresh([], Seen, [], Seen).
fresh([T|Ts], Seen, Us, More) :- member(T, Seen), !, fresh(Ts, Seen, Us, More).
fresh([T|Ts], Seen, [T|Us], More) :- fresh(Ts, [T|Seen], Us, More).
extend([], _, []).
extend([T|Ts], P, [[T|P]|L]) :- extend(Ts, P, L).
pour(j(X, Y), j(4, Y)) :- X < 4.
pour(j(X, Y), j(X, 3)) :- Y < 3.
pour(j(X, Y), j(0, Y)) :- X > 0.
pour(j(X, Y), j(X, 0)) :- Y > 0.
pour(j(X, Y), j(A, B)) :- X > 0, Y < 3, min(X, 3 - Y, N), A is X - N, B is Y + N.
pour(j(X, Y), j(A, B)) :- Y > 0, X < 4, min(Y, 4 - X, N), A is X + N, B is Y - N.
min(X, Y, Z) :- V is Y, ( X =< V -> Z = X ; Z = V ).
member(X, [X|_]) :- !.
member(X, [_|L]) :- member(X, L).
append([], L, L).
append([X|L], M, [X|N]) :- append(L, M, N).
reverse([], R, R).
reverse([X|L], A, R) :- reverse(L, [X|A], R).
