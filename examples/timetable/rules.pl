% Connections, and journeys that visit no place twice.
:- relation(train/4).   % from, to, departure, arrival, in minutes after midnight

train(airport, centre, 480, 500).
train(airport, centre, 510, 530).
train(centre, harbour, 505, 520).
train(centre, market, 515, 525).
train(harbour, island, 530, 570).
train(market, harbour, 540, 550).
train(harbour, airport, 560, 600).
train(island, harbour, 580, 620).

% A journey: the trains from one place to another, each at least 5 minutes behind the one before.
journey(From, To, Trains) :- ride(From, To, 0, [From], Trains).
ride(From, To, Ready, Visited, [From - Leaves, To - Arrives]) :-
    train(From, To, Leaves, Arrives), Leaves >= Ready,
    \+ member(To, Visited).
ride(From, To, Ready, Visited, [From - Leaves|Trains]) :-
    train(From, Via, Leaves, Arrives), Leaves >= Ready,
    Via \== To,
    \+ member(Via, Visited),
    Next is Arrives + 5,
    ride(Via, To, Next, [Via|Visited], Trains).
member(X, [X|_]).
member(X, [_|Xs]) :- member(X, Xs).

arrives([_ - T], T).
arrives([_, T|Ts], A) :- arrives([T|Ts], A).

% The earliest of all arrivals.
earliest(From, To, Time) :-
    findall(A, (journey(From, To, Trains), arrives(Trains, A)), [A|As]),
    least(As, A, Time).
least([], T, T).
least([A|As], B, T) :- A < B, !, least(As, A, T).
least([_|As], B, T) :- least(As, B, T).

% The same question without a list of visited places: it goes round for ever.
reaches(From, To) :- train(From, To, _, _).
reaches(From, To) :- reaches(From, Via), train(Via, To, _, _).
