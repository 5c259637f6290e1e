#!/usr/bin/env escript
%% An independent coder: the asn1 application of Erlang/OTP, unaligned PER, over the ASN.1 module of tests/fields.
%%
%%   oracle.erl encode MODULE.asn    reads lines SIDE KIND NUMBER ID MSG CHECK ADDITION.., prints BITS HEX for each
%%   oracle.erl decode MODULE.asn    reads lines SIDE HEX, prints SIDE KIND NUMBER ID MSG CHECK for each, or `refused`
%%
%% SIDE is air or ground; a string of bits is COUNT:HEX; an identifier is the hexadecimal of its contents; `-` is an absent part, a number that
%% the kind has not, or no bytes. Of a forward the numbers stand in NUMBER (year to seconds, address, direction), the characters of the flight
%% identification in ID, and the message's bits in MSG. An addition of a later edition is an Erlang term without spaces, o:COUNT:BYTE for octets that are
%% alike, b:COUNT:HEX for bits, or `-`.
-mode(compile).

main([Mode, Asn]) ->
    Room = string:trim(os:cmd("mktemp -d")),
    ok = asn1ct:compile(Asn, [uper, {outdir, Room}]),
    true = code:add_path(Room),
    {module, _} = code:load_file('PeatribbonPDUs'),
    os:cmd("rm -rf '" ++ Room ++ "'"),
    lines(Mode).

lines(Mode) ->
    case io:get_line("") of
        eof -> ok;
        Line ->
            io:format("~s~n", [answer(Mode, string:lexemes(string:trim(Line), " "))]),
            lines(Mode)
    end.

answer("encode", [Side | Words]) ->
    Type = type(Side), Value = value(Side, Words), Marked = list_to_atom("Marked-" ++ atom_to_list(Type)),
    {ok, Bytes} = 'PeatribbonPDUs':encode(Marked, {Marked, Value, 255}),
    Count = last_one(Bytes) - 8,
    <<Bits:Count/bits, 255, _/bits>> = Bytes,
    Padded = padded(Bits),
    {ok, Padded} = 'PeatribbonPDUs':encode(Type, Value),
    [integer_to_list(Count), " ", hex(Padded)];
answer("decode", [Side, Hex]) ->
    case catch 'PeatribbonPDUs':decode(type(Side), bytes(Hex)) of
        {ok, Value} -> text(Side, Value);
        _ -> "refused"
    end.

type("air") -> 'AircraftPDUs';
type("ground") -> 'GroundPDUs'.

data_type("air") -> 'ProtectedDownlinkMessage';
data_type("ground") -> 'ProtectedUplinkMessage'.

%% ---- from text to a value, and back

value(_, ["abort-user", N | _]) -> {abortUser, lists:nth(1 + list_to_integer(N), user_reasons())};
value(_, ["abort-provider", N | _]) -> {abortProvider, lists:nth(1 + list_to_integer(N), provider_reasons())};
value("air", ["start", N | Parts]) -> {startdown, {'StartDownMessage', lists:nth(1 + list_to_integer(N), modes()), data("air", Parts)}};
value("ground", ["start", "0" | Parts]) -> {startup, data("ground", Parts)};
value(_, ["forward-response", N | _]) -> {forwardresponse, lists:nth(1 + list_to_integer(N), results())};
value(_, ["forward", Numbers, Flight, Msg | _]) ->
    [Y, Mo, D, H, Mi, S, Address, Direction] = [list_to_integer(N) || N <- string:lexemes(Numbers, ",")],
    Alternative = case Direction of 0 -> upElementIDs; 1 -> downElementIDs end,
    {forward, {'ATCForwardMessage',
        {'ForwardHeader', {'DateTimeGroup', {'Date', Y, Mo, D}, {'Timehhmmss', {'Time', H, Mi}, S}}, binary_to_list(bytes(Flight)), <<Address:24>>},
        {Alternative, bits(Msg)}}};
value(Side, ["send", "-" | Parts]) -> {send, data(Side, Parts)}.

data(Side, [Id, Msg, Check | Additions]) ->
    list_to_tuple([data_type(Side), arcs(Id), optional_bits(Msg), bits(Check) | [addition(A) || A <- Additions]]).

addition("-") -> asn1_NOVALUE;
addition("o:" ++ Text) -> [N, Byte] = string:split(Text, ":"), binary:copy(<<(list_to_integer(Byte))>>, list_to_integer(N));
addition("b:" ++ Text) ->
    [Count, Hex] = string:split(Text, ":"),
    N = list_to_integer(Count),
    <<Bits:N/bits, _/bits>> = binary:copy(<<(bytes(Hex))/binary, 0>>, 1 + N div 8),
    Bits;
addition(Term) ->
    {ok, Tokens, _} = erl_scan:string(Term ++ "."),
    {ok, Value} = erl_parse:parse_term(Tokens),
    Value.

arcs("-") -> asn1_NOVALUE;
arcs(Hex) -> list_to_tuple([B || <<B>> <= bytes(Hex), B < 128]).

optional_bits("-") -> asn1_NOVALUE;
optional_bits(Text) -> bits(Text).

bits(Text) ->
    [Count, Hex] = string:split(Text, ":"),
    N = list_to_integer(Count),
    <<Bits:N/bits, _/bits>> = bytes(Hex),
    Bits.

text(Side, {abortUser, Name}) -> words([Side, "abort-user", index(Name, user_reasons()), "-", "-", "-"]);
text(Side, {abortProvider, Name}) -> words([Side, "abort-provider", index(Name, provider_reasons()), "-", "-", "-"]);
text(Side, {startdown, {_, Mode, Data}}) -> words([Side, "start", index(Mode, modes()) | data_text(Data)]);
text(Side, {startup, Data}) -> words([Side, "start", "0" | data_text(Data)]);
text(Side, {send, Data}) -> words([Side, "send", "-" | data_text(Data)]);
text(Side, {forwardresponse, Name}) -> words([Side, "forward-response", index(Name, results()), "-", "-", "-"]);
text(Side, {forward, {_, {_, {_, {_, Y, Mo, D}, {_, {_, H, Mi}, S}}, Flight, <<Address:24>>}, {Alternative, Bits}}}) ->
    Direction = case Alternative of upElementIDs -> 0; downElementIDs -> 1 end,
    Numbers = lists:join(",", [integer_to_list(N) || N <- [Y, Mo, D, H, Mi, S, Address, Direction]]),
    words([Side, "forward", Numbers, hex(list_to_binary(Flight)), bits_text(Bits), "-"]);
text(_, _) -> "refused".                            % an alternative of a later version

data_text({_, Id, Msg, Check}) ->
    [case Id of asn1_NOVALUE -> "-"; _ -> contents(tuple_to_list(Id)) end,
     case Msg of asn1_NOVALUE -> "-"; _ -> bits_text(Msg) end, bits_text(Check)];
data_text(T) -> data_text(list_to_tuple(lists:sublist(tuple_to_list(T), 4))).

%% An identifier whose arcs are below 128: others are not asked for.
contents(Arcs) -> case lists:all(fun(A) -> A < 128 end, Arcs) of true -> hex(list_to_binary(Arcs)); false -> "arcs" end.

bits_text(Bits) -> [integer_to_list(bit_size(Bits)), ":", hex(padded(Bits))].
words(Words) -> lists:join(" ", Words).
index(Name, Names) -> case lists:member(Name, Names) of true -> integer_to_list(length(lists:takewhile(fun(X) -> X =/= Name end, Names))); false -> "-" end.

modes() -> [cpdlc, dsc].
results() -> ['success', 'service-not-supported', 'version-not-equal'].
user_reasons() ->
    ['undefined', 'no-message-identification-numbers-available', 'duplicate-message-identification-numbers', 'no-longer-next-data-authority',
     'current-data-authority-abort', 'commanded-termination', 'invalid-response', 'time-out-of-synchronisation', 'unknown-integrity-check',
     'validation-failure', 'unable-to-decode-message', 'invalid-pdu', 'invalid-CPDLC-message'].
provider_reasons() ->
    ['timer-expired', 'undefined-error', 'invalid-PDU', 'protocol-error', 'communication-service-error', 'communication-service-failure',
     'invalid-QOS-parameter', 'expected-PDU-missing'].

%% ---- bytes

padded(Bits) -> <<Bits/bits, 0:(-bit_size(Bits) band 7)>>.
hex(<<>>) -> "-";
hex(Bytes) -> [io_lib:format("~2.16.0b", [B]) || <<B>> <= Bytes].
bytes("-") -> <<>>;
bytes([A, B | Rest]) -> <<(list_to_integer([A, B], 16)), (bytes_of(Rest))/binary>>.
bytes_of([]) -> <<>>;
bytes_of([A, B | Rest]) -> <<(list_to_integer([A, B], 16)), (bytes_of(Rest))/binary>>.

last_one(Bytes) ->
    Last = binary:last(Bytes),
    if Last =:= 0 -> last_one(binary:part(Bytes, 0, byte_size(Bytes) - 1));
       true -> 8 * byte_size(Bytes) - zeros(Last)
    end.
zeros(N) when N band 1 =:= 1 -> 0;
zeros(N) -> 1 + zeros(N bsr 1).
