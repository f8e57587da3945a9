:- clauses(light/1).
:- relation(next/2, [1]).
light(red).
next(red, green). next(green, yellow). next(yellow, red).
change :- retract(light(X)), next(X, Y), assertz(light(Y)).
