% Who may do what, by rules that are stored, asked, changed and explained.
:- relation(member/2).     % a person, and a group
:- clauses(may/3).         % a person, an action, a thing
:- clauses(why/2).         % a stored rule once more as data: its head and its body

member(ada, admins).
member(bob, writers).
member(cy, readers).

may(P, read, page(_)) :- member(P, readers).
may(P, A, page(_)) :- member(P, writers), good(A).
may(P, _, _) :- member(P, admins).
why(may(P, read, page(_)), member(P, readers)).
why(may(P, A, page(_)), (member(P, writers), good(A))).
why(may(P, _, _), member(P, admins)).
good(read).
good(write).

% A right is given and taken back as a rule and as its reason.
grant(Head, Body) :- assertz((Head :- Body)), assertz(why(Head, Body)).
revoke(Head, Body) :- once(retract((Head :- Body))), once(retract(why(Head, Body))).

% An explanation: which rule gave the right, and which facts stand behind it.
explain(Goal, Goal - because(Proofs)) :- why(Goal, Body), facts(Body, Proofs).
facts((A, B), Proofs) :- !, facts(A, Ps), facts(B, Qs), append(Ps, Qs, Proofs).
facts(A, [A]) :- call(A).
append([], L, L).
append([X|Xs], L, [X|Ys]) :- append(Xs, L, Ys).

% Every right has a reason, and nobody but admins may delete.
wrong :- may(P, delete, T), \+ member(P, admins), \+ T == draft.
