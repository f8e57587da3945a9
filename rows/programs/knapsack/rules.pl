item(map, 9, 150). item(compass, 13, 35). item(water, 153, 200). item(sandwich, 50, 160). item(banana, 27, 60).
pick([], _, 0, []).
pick([I|Is], Room, V, [I|L]) :- item(I, W, U), W =< Room, R is Room - W, pick(Is, R, T, L), V is T + U.
pick([_|Is], Room, V, L) :- pick(Is, Room, V, L).
best(Room, V, L) :- findall(I, item(I, _, _), Is), findall(V0-L0, pick(Is, Room, V0, L0), All), most(All, 0-[], V-L).
most([], M, M).
most([V-L|R], W-_, M) :- V > W, !, most(R, V-L, M).
most([_|R], X, M) :- most(R, X, M).
