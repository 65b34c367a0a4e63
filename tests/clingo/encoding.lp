% Held, Clean and marking of document 01 as a logic program. A table's facts are
%   fact(H)      the rule of head H is a fact
%   group(H, G)  G is a group of the rule of head H
%   in(G, L)     literal L stands in group G
% with literal codes 2 x atom, plus 1 for the negation.
%
% marked depends on "not clean" and clean on "not marked", so there can be several answer sets. A marking A is one exactly if it is the
% least set closed under both ways of marking with Clean taken at A itself. The settled marking is one, as Clean shrinks as marks are
% made; and each of them contains it, as what could be marked on the way to it can be marked there too. So the intersection of all answer
% sets has the settled marking and its Held: the cautious consequences of marked and held.

held(2*A) :- marked(A).
held(2*A+1) :- marked(A).
held(H) :- fact(H).
held(H) :- group(H, G), held(L) : in(G, L).

clean(H) :- fact(H), not marked(H/2).
clean(H) :- group(H, G), not marked(H/2), clean(L) : in(G, L).

marked(A) :- held(2*A), held(2*A+1).
marked(L/2) :- held(L), not clean(L).

#show marked/1.
#show held/1.
