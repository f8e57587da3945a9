% A session is refused while a rule of the data is broken.
:- relation(supplier/2, [1]).
:- relation(part/2, [1]).
:- relation(supplies/2, [1, 2]).
supplier(s1, london). supplier(s2, paris).
part(p1, red). part(p2, green).
supplies(s1, p1). supplies(s1, p2). supplies(s2, p1).
broken(no_supplier(S)) :- supplies(S, _), \+ supplier(S, _).
broken(no_part(P)) :- supplies(_, P), \+ part(P, _).
broken(two_cities(S)) :- supplier(S, A), supplier(S, B), A @< B.
supplies_all(S) :- supplier(S, _), \+ ( part(P, _), \+ supplies(S, P) ).
