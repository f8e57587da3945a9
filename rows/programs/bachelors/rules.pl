% Negation as failure, and where it misleads: a variable that isn't bound yet.
:- relation(man/1).
:- relation(married/1).
man(adam). man(ben). man(carl).
married(ben).
bachelor(X) :- man(X), \+ married(X).
wrong(X) :- \+ married(X), man(X).
