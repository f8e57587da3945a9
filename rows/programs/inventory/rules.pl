:- relation(stock/2, [1]).
:- clauses(price/2).
stock(bolt, 100). stock(nut, 20).
price(bolt, 3).
price(nut, 1).
price(Kit, P) :- kit(Kit, Parts), cost(Parts, P).
kit(joint, [bolt, nut, nut]).
kit(frame, [joint, joint, bolt]).
cost([], 0).
cost([X|L], P) :- price(X, Q), cost(L, R), P is Q + R.
sell(X, N) :- stock(X, M), M >= N, !, K is M - N, delete_tuple(stock(X, M)), insert_tuple(stock(X, K)).
sell(X, N) :- throw(short(X, N)).
