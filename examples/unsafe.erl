-module(unsafe).
-export([f/1]).
f(A) ->
    case A of
        1 -> B = 2;
        _ -> C = 3
    end,
    B.
