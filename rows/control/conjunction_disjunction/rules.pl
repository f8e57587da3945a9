a(1). a(2). a(3).
c1(X) :- a(X), ! ; X = never.
c2(X) :- ( a(X), ! ; X = never ).
c2(behind).
c3(X) :- ( fail ; a(X) ), !.
c4(X) :- a(X).
c4(X) :- !, X = cut.
c4(never).
c5(X, Y) :- a(X), ( X = 2, ! ; true ), a(Y).
c6(X) :- ( ! , fail ; X = never ).
c6(never).
c7 :- !.
c7 :- nosuch.
