sentence(s(N, V), A, C) :- noun_phrase(N, Number, A, B), verb_phrase(V, Number, B, C).
noun_phrase(np(D, N), Number, [D|A], B) :- determiner(D, Number), noun_of(N, Number, A, B).
noun_of(N, Number, [N|A], A) :- noun(N, Number).
verb_phrase(vp(V), Number, [V|A], A) :- verb(V, Number).
verb_phrase(vp(V, N), Number, [V|A], B) :- verb(V, Number), noun_phrase(N, _, A, B).
determiner(the, _). determiner(a, one).
noun(cat, one). noun(cats, many). noun(mouse, one).
verb(sees, one). verb(see, many).
