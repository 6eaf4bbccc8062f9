-module(bill).
-export([main/0]).
main() ->
    Bread = 3,
    Milk = 2,
    Bag = 1,
    Food = sum(Bread, Milk),
    Total = with_bag(Bread, Food),
    erlang:display(Total).
sum(A, B) ->
    A + B.
with_bag(Bag, Food) ->
    Bag + Food.
