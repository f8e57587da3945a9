% Each ends where its budget is used up.
a :- a.
b :- b, true.
c :- true, c, c.
d :- \+ d.
e :- once(e).
f :- call(f).
g :- ( g -> true ; true ).
h :- ( true ; h ), h.
i :- ( h ; i ).
j(X) :- j(f(X)).
k(X) :- k([X|X]).
l :- G = l, G.
n :- \+ \+ n.
o(X) :- ( o(X) ; o(X) ; true ).
:- clauses(s/1).
s(X) :- s(X).
t :- assertz(s(1)), t.
