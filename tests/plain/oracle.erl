#!/usr/bin/env escript
%% An independent coder of application type 2: the asn1 application of Erlang/OTP, unaligned PER, over PlainPDUs.asn.
%%
%%   oracle.erl MESSAGES.asn PLAIN.asn    reads lines SIDE HEX; prints BITS HEX KIND NUMBER ELEMENTS for each, or `refused`: the bits and the bytes
%%                                        that it writes of what it read
%%
%% SIDE is air or ground. NUMBER is a reason, a mode or a result, of a send the message's identification. ELEMENTS is the count of elements, `-` where no message is there.
-mode(compile).

main([Messages, Plain]) ->
    Room = string:trim(os:cmd("mktemp -d")),
    ok = asn1ct:compile(Messages, [uper, {outdir, Room}]),
    ok = asn1ct:compile(Plain, [uper, {outdir, Room}, {i, filename:dirname(Messages)}]),
    true = code:add_path(Room),
    {module, _} = code:load_file('PeatribbonPDUs'),
    {module, _} = code:load_file('PlainPDUs'),
    os:cmd("rm -rf '" ++ Room ++ "'"),
    lines().

lines() ->
    case io:get_line("") of
        eof -> ok;
        Line ->
            [Side, Hex] = string:lexemes(string:trim(Line), " "),
            io:format("~s~n", [answer(Side, bytes(Hex))]),
            lines()
    end.

answer(Side, Bytes) ->
    Type = type(Side), Marked = list_to_atom("Marked-" ++ atom_to_list(Type)),
    case catch 'PlainPDUs':decode(Type, Bytes) of
        {ok, Value} ->
            {ok, Long} = 'PlainPDUs':encode(Marked, {Marked, Value, 255}),
            Count = last_one(Long) - 8,
            {ok, Again} = 'PlainPDUs':encode(Type, Value),
            lists:join(" ", [integer_to_list(Count), hex(Again) | told(Value)]);
        _ -> "refused"
    end.

type("air") -> 'PlainAircraftPDUs';
type("ground") -> 'PlainGroundPDUs'.

told({abortUser, Name}) -> ["abort-user", atom_to_list(Name), "-"];
told({abortProvider, Name}) -> ["abort-provider", atom_to_list(Name), "-"];
told({forwardresponse, Name}) -> ["forward-response", atom_to_list(Name), "-"];
told({startdown, {_, Mode, Message}}) -> ["start", atom_to_list(Mode), held(Message)];
told({startup, Message}) -> ["start", "cpdlc", held(Message)];
told({send, Message}) -> ["send", identification(Message), elements(Message)];
told({forward, {_, _, {Direction, Data}}}) -> ["forward", atom_to_list(Direction), integer_to_list(length(element(2, Data)))].

held({noMessage, _}) -> "-";
held({_, Message}) -> elements(Message).

identification({_, Header, _}) -> integer_to_list(element(2, Header)).
elements({_, _, Data}) -> integer_to_list(length(element(2, Data))).

%% the place behind the last bit that is 1
last_one(Bytes) -> last_one(Bytes, 0, 0).
last_one(<<>>, _, Last) -> Last;
last_one(<<1:1, Rest/bits>>, At, _) -> last_one(Rest, At + 1, At + 1);
last_one(<<0:1, Rest/bits>>, At, Last) -> last_one(Rest, At + 1, Last).

bytes("-") -> <<>>;
bytes(Hex) -> << <<(list_to_integer([A, B], 16))>> || [A, B] <- pairs(Hex) >>.
pairs([]) -> [];
pairs([A, B | Rest]) -> [[A, B] | pairs(Rest)].
hex(Bytes) -> [io_lib:format("~2.16.0b", [B]) || <<B>> <= Bytes].
