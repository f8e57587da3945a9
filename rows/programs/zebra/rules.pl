right_of(X, Y, [Y, X|_]).
right_of(X, Y, [_|L]) :- right_of(X, Y, L).
next_to(X, Y, L) :- right_of(X, Y, L) ; right_of(Y, X, L).
member(X, [X|_]).
member(X, [_|L]) :- member(X, L).
houses(Hs) :-
    Hs = [h(_, norwegian, _, _, _), _, h(_, _, _, milk, _), _, _],
    member(h(red, english, _, _, _), Hs),
    right_of(h(green, _, _, coffee, _), h(ivory, _, _, _, _), Hs),
    next_to(h(_, norwegian, _, _, _), h(blue, _, _, _, _), Hs),
    member(h(yellow, _, _, _, kools), Hs),
    member(h(_, spanish, dog, _, _), Hs),
    member(h(_, ukrainian, _, tea, _), Hs),
    member(h(_, _, snails, _, winston), Hs),
    next_to(h(_, _, _, _, chesterfield), h(_, _, fox, _, _), Hs),
    next_to(h(_, _, _, _, kools), h(_, _, horse, _, _), Hs),
    member(h(_, _, _, juice, lucky), Hs),
    member(h(_, japanese, _, _, parliament), Hs).
