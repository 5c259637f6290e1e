#!/usr/bin/env escript
%% An independent coder: the asn1 application of Erlang/OTP, unaligned PER, over Fields.asn and PeatribbonPDUs.asn.
%%
%%   oracle.erl generate OUT          writes OUT/fields.txt, OUT/pdus.txt and OUT/messages.txt, the same on every run
%%   oracle.erl decode MODULE TYPE    reads lines of hexadecimal bytes, prints the value of each, or `refused`
%%
%% A line is KIND PARAMETERS VALUE BITS BYTES. BYTES are the value's bits, padded with zeros to whole bytes; BITS is how many
%% they are before padding, found by the mark (see Fields.asn). VECTORS.md says how values are written.
-mode(compile).

main(["generate", Out]) ->
    prepare(),
    put(seed, 20241),
    write(Out, "fields.txt", fields()),
    write(Out, "pdus.txt", pdus()),
    write(Out, "messages.txt", messages());
main(["decode", Module, Type]) ->
    prepare(),
    decode_lines(list_to_atom(Module), list_to_atom(Type));
main(_) ->
    io:format(standard_error, "usage: oracle.erl generate OUT | decode MODULE TYPE~n", []),
    halt(2).

%% ---- the coder

%% Compiles both modules into a folder of this run's own.
prepare() ->
    Here = filename:dirname(filename:absname(escript:script_name())),
    Room = string:trim(os:cmd("mktemp -d")),
    put(here, Here),
    [ok = asn1ct:compile(filename:join(Here, F), [uper, {outdir, Room}]) || F <- ["Fields.asn", "PeatribbonPDUs.asn"]],
    true = code:add_path(Room),
    [{module, M} = code:load_file(M) || M <- ['Fields', 'PeatribbonPDUs']],
    os:cmd("rm -rf '" ++ Room ++ "'").

%% The bits of a value. The mark behind it shows where they end; the value by itself must code to the same bits, padded,
%% and those must decode to the value.
coded(Module, Type, Value) ->
    Marked = list_to_atom("Marked-" ++ atom_to_list(Type)),
    {ok, Bytes} = Module:encode(Marked, {Marked, Value, 255}),
    Count = last_one(Bytes) - 8,
    <<Bits:Count/bits, 255, _/bits>> = Bytes,
    {ok, Alone} = Module:encode(Type, Value),
    Alone = case padded(Bits) of <<>> -> <<0>>; P -> P end,
    {ok, Back} = Module:decode(Type, Alone),
    {same, _, _} = {same(Module, Type, Back, Value, Alone), Back, Value},
    Bits.

%% A decoded value is the same when it codes to the same bytes: a default may have been left out of the one that was given.
same(_, _, Value, Value, _) -> same;
same(Module, Type, Back, _, Bytes) ->
    {ok, Bytes} = Module:encode(Type, Back),
    same.

%% How many bits there are up to the last that is 1.
last_one(Bytes) ->
    Last = binary:last(Bytes),
    if Last =:= 0 -> last_one(binary:part(Bytes, 0, byte_size(Bytes) - 1));
       true -> 8 * byte_size(Bytes) - zeros(Last)
    end.
zeros(N) when N band 1 =:= 1 -> 0;
zeros(N) -> 1 + zeros(N bsr 1).

padded(Bits) -> <<Bits/bits, 0:(-bit_size(Bits) band 7)>>.

line(Kind, Params, Text, Bits) ->
    [Kind, " ", Params, " ", Text, " ", integer_to_list(bit_size(Bits)), " ", hex(padded(Bits)), "\n"].

hex(<<>>) -> "-";
hex(Bytes) -> [io_lib:format("~2.16.0B", [B]) || <<B>> <= Bytes].

%% A string of bits as COUNT:HEX.
bits_text(Bits) -> [integer_to_list(bit_size(Bits)), ":", hex(padded(Bits))].

write(Out, Name, Lines) -> ok = file:write_file(filename:join(Out, Name), Lines).

%% ---- numbers of this run: the same everywhere, whatever the version of Erlang

random(N) -> % 0 .. N - 1
    S = (get(seed) * 6364136223846793005 + 1442695040888963407) band 16#ffffffffffffffff,
    put(seed, S),
    (S bsr 24) * N bsr 40.

between(Lo, Hi) when Hi - Lo < 1 bsl 40 -> Lo + random(Hi - Lo + 1);
between(Lo, Hi) -> Lo + (random(1 bsl 32) * (1 bsl 32) + random(1 bsl 32)) rem (Hi - Lo + 1).

pick(List) -> lists:nth(1 + random(length(List)), List).
perhaps(Make) -> case random(2) of 0 -> asn1_NOVALUE; _ -> Make() end.
random_bits(N) -> << <<(random(2)):1>> || _ <- lists:seq(1, N) >>.
random_octets(N) -> << <<(random(256))>> || _ <- lists:seq(1, N) >>.
random_text(N) -> [random(128) || _ <- lists:seq(1, N)].

%% ---- fields

fields() ->
    [[whole(R) || R <- ranges()],
     [index("enum", "Enum-", "v", N, More) || N <- [2, 3, 8, 13], More <- ["", "-more"]],
     [index("choice", "Choice-", "a", N, More) || N <- [2, 3, 4, 6, 114, 115, 237], More <- ["", "-more"]],
     [line("bool", "-", integer_to_list(V), coded('Fields', 'Boolean', V =:= 1)) || V <- [0, 1]],
     [line("bits", "-", bits_text(B), coded('Fields', 'Bits', B)) || B <- bit_strings()],
     [line("octets", "-", hex(O), coded('Fields', 'Octets', O)) || O <- octet_strings()],
     [line("arcs", "-", hex(contents(A)), coded('Fields', 'Arcs', list_to_tuple(A))) || A <- arcs()],
     [text(R) || R <- [{1, 256}, {4, 8}, {2, 8}, {1, 1}, {0, 255}]],
     [line("digits", "4", dotted(D), coded('Fields', 'Digits', D)) || D <- [[7, 5, 0, 0] | [random_list(4, 0, 7) || _ <- lists:seq(1, 200)]]],
     [line("counted", "1..5", dotted(D), coded('Fields', 'Counted', D)) || N <- [1, 2, 3, 4, 5], D <- [random_list(N, 0, 63) || _ <- lists:seq(1, 30)]],
     [open_sequence() || _ <- lists:seq(1, 300)],
     [shut_sequence(M, I) || M <- [0, 1], I <- lists:seq(0, 63)],
     [plain_sequence(P, Q) || P <- lists:seq(1, 31), Q <- [0, 1]],
     [fragments(N) || N <- [16384, 16385, 32768, 65536]]].

ranges() ->
    [{0, 63}, {1, 5}, {1, 12}, {1, 31}, {1996, 2095}, {0, 23}, {0, 59}, {0, 7}, {-60, 7000}, {-30, 25000}, {30, 700}, {100, 2500},
     {0, 2047}, {7, 7}, {0, 1}, {0, 255}, {0, 65535}, {0, 65536}, {0, 1 bsl 32 - 1}, {0, 1 bsl 63 - 1}, {0, 1 bsl 64 - 1}].

name(N) when N < 0 -> "m" ++ integer_to_list(-N);
name(N) -> integer_to_list(N).

range_text({Lo, Hi}) -> [integer_to_list(Lo), "..", integer_to_list(Hi)].

%% Every value of a short range; both ends, every power of two and some values of a long one.
whole({Lo, Hi} = Range) ->
    Type = list_to_atom("Whole-" ++ name(Lo) ++ "-" ++ name(Hi)),
    Values = if Hi - Lo < 300 -> lists:seq(Lo, Hi);
                true -> lists:usort([Lo, Lo + 1, Hi - 1, Hi] ++ [V || B <- lists:seq(0, 63), V <- [Lo + (1 bsl B) - 1, Lo + (1 bsl B)], V =< Hi]
                                    ++ [between(Lo, Hi) || _ <- lists:seq(1, 200)])
             end,
    [line("whole", range_text(Range), integer_to_list(V), coded('Fields', Type, V)) || V <- Values].

index(Kind, Prefix, Letter, N, More) ->
    Type = list_to_atom(Prefix ++ integer_to_list(N) ++ More),
    Value = fun(I) ->
        Name = list_to_atom(Letter ++ integer_to_list(I)),
        case Kind of "enum" -> Name; "choice" -> {Name, 'NULL'} end
    end,
    [line(Kind, [integer_to_list(N), case More of "" -> ""; _ -> "+" end], integer_to_list(I), coded('Fields', Type, Value(I))) || I <- lists:seq(0, N - 1)].

lengths() -> [0, 1, 2, 7, 8, 9, 15, 16, 63, 64, 65, 127, 128, 129, 255, 256, 257].

bit_strings() ->
    [random_bits(N) || N <- lengths() ++ [2047, 2048, 2049, 16382, 16383]]
        ++ [<<-1:N>> || N <- lengths()] ++ [random_bits(random(300)) || _ <- lists:seq(1, 500)].

%% A string of bits that is too long for one length: it comes in fragments.
fragments(N) ->
    Bits = random_bits(N),
    line("fragments", "-", integer_to_list(N), coded('Fields', 'Bits', Bits)).

octet_strings() ->
    [random_octets(N) || N <- lengths() ++ [2047, 2048, 16383]] ++ [random_octets(random(40)) || _ <- lists:seq(1, 500)].

arcs() ->
    [[0], [127], [128], [16383], [16384], [1, 2, 300]] ++ [random_list(between(1, 5), 0, 20000) || _ <- lists:seq(1, 200)].

%% The contents octets of a RELATIVE-OID: each arc in groups of seven bits, the highest first (X.690, 8.20).
contents(Arcs) -> << <<(groups(A, 0))/binary>> || A <- Arcs >>.
groups(N, Top) when N < 128 -> <<(N bor Top)>>;
groups(N, Top) -> <<(groups(N bsr 7, 128))/binary, (N band 127 bor Top)>>.

random_list(N, Lo, Hi) -> [between(Lo, Hi) || _ <- lists:seq(1, N)].
dotted(Numbers) -> lists:join(".", [integer_to_list(N) || N <- Numbers]).

text({Lo, Hi} = Range) ->
    Type = list_to_atom("Text-" ++ integer_to_list(Lo) ++ "-" ++ integer_to_list(Hi)),
    Sizes = lists:usort([Lo, Hi, (Lo + Hi) div 2, min(Lo + 1, Hi), max(Hi - 1, Lo)]) ++ [between(Lo, min(Hi, Lo + 20)) || _ <- lists:seq(1, 80)],
    Known = case Range of {1, 256} -> ["A"]; {4, 8} -> ["ABCD"]; {1, 1} -> [[C] || C <- lists:seq(0, 127)]; _ -> [] end,
    Texts = Known ++ [random_text(N) || N <- Sizes],
    [line("text", range_text(Range), hex(list_to_binary(T)), coded('Fields', Type, T)) || T <- Texts].

optional(asn1_NOVALUE) -> "-";
optional(N) -> integer_to_list(N).

open_sequence() ->
    A = random(64), B = perhaps(fun() -> between(1, 12) end), C = random(2), D = perhaps(fun() -> random(8) end),
    line("sequence", "Open", ["a=", integer_to_list(A), ",b=", optional(B), ",c=", integer_to_list(C), ",d=", optional(D)],
         coded('Fields', 'Open', {'Open', A, B, lists:nth(1 + C, [no, yes]), D})).
shut_sequence(M, I) ->
    line("sequence", "Shut", ["m=", integer_to_list(M), ",i=", integer_to_list(I)],
         coded('Fields', 'Shut', {'Shut', lists:nth(1 + M, [first, second]), I})).
plain_sequence(P, Q) ->
    line("sequence", "Plain", ["p=", integer_to_list(P), ",q=", integer_to_list(Q)], coded('Fields', 'Plain', {'Plain', P, Q =:= 1})).

%% ---- protocol data units

user_reasons() ->
    ['undefined', 'no-message-identification-numbers-available', 'duplicate-message-identification-numbers', 'no-longer-next-data-authority',
     'current-data-authority-abort', 'commanded-termination', 'invalid-response', 'time-out-of-synchronisation', 'unknown-integrity-check',
     'validation-failure', 'unable-to-decode-message', 'invalid-pdu', 'invalid-CPDLC-message'].
provider_reasons() ->
    ['timer-expired', 'undefined-error', 'invalid-PDU', 'protocol-error', 'communication-service-error', 'communication-service-failure',
     'invalid-QOS-parameter', 'expected-PDU-missing'].
forward_responses() -> ['success', 'service-not-supported', 'version-not-equal'].

pdu(Type, Text, Value) -> line(atom_to_list(Type), "-", Text, coded('PeatribbonPDUs', Type, Value)).

pdus() ->
    Kinds = [{'GroundPDUs', 'ProtectedUplinkMessage'}, {'AircraftPDUs', 'ProtectedDownlinkMessage'}],
    [[[aborts(Pdus, 'abortUser', user_reasons()), aborts(Pdus, 'abortProvider', provider_reasons())] || {Pdus, _} <- Kinds],
     aborts('GroundPDUs', 'forwardresponse', forward_responses()),
     [[protected(Type, "", fun(V) -> V end, P) || P <- parts()] || {_, Type} <- Kinds],
     [[protected(Pdus, "send:", fun(V) -> {send, V} end, named(Type, P)) || P <- parts()] || {Pdus, Type} <- Kinds],
     [protected('GroundPDUs', "startup:", fun(V) -> {startup, V} end, named('ProtectedUplinkMessage', P)) || P <- parts()],
     [start_down(M, P) || M <- [0, 1], P <- parts()],
     [forward() || _ <- lists:seq(1, 60)]].

aborts(Type, Alternative, Names) ->
    [pdu(Type, [atom_to_list(Alternative), ":", integer_to_list(N)], {Alternative, Name}) || {N, Name} <- lists:zip(lists:seq(0, length(Names) - 1), Names)].

%% Identifier, message and check of a protected message: all that may be left out, and the sizes at their ends.
parts() ->
    Ids = [asn1_NOVALUE, [127], [1, 2, 300], [128, 128, 128, 128, 128, 128, 128, 128]],
    [{I, M, C} || I <- Ids, M <- [asn1_NOVALUE, <<>>, random_bits(17)], C <- [<<>>, random_bits(32)]]
        ++ [{asn1_NOVALUE, random_bits(N), random_bits(C)} || {N, C} <- [{127, 1}, {128, 64}, {129, 63}, {1023, 8}, {2047, 31}, {2048, 64}, {2049, 0}, {16382, 63}, {16383, 64}]]
        ++ [{[128, 128, 128, 128, 128, 128, 128, 128], random_bits(16383), random_bits(64)}]
        ++ [{perhaps(fun() -> random_list(between(1, 5), 0, 300) end), perhaps(fun() -> random_bits(random(400)) end), random_bits(random(65))} || _ <- lists:seq(1, 40)].

named(Type, {I, M, C}) -> {Type, I, M, C}.

protected(Type, Prefix, Wrap, {I, M, C}) -> protected(Type, Prefix, Wrap, {Type, I, M, C});
protected(Type, Prefix, Wrap, {Inner, I, M, C}) -> pdu(Type, [Prefix, parts_text(I, M, C)], Wrap({Inner, arcs_value(I), M, C})).

arcs_value(asn1_NOVALUE) -> asn1_NOVALUE;
arcs_value(Arcs) -> list_to_tuple(Arcs).

parts_text(I, M, C) ->
    ["id=", case I of asn1_NOVALUE -> "-"; _ -> hex(contents(I)) end,
     ",msg=", case M of asn1_NOVALUE -> "-"; _ -> bits_text(M) end,
     ",check=", bits_text(C)].

start_down(M, {I, Msg, C}) ->
    pdu('AircraftPDUs', ["startdown:mode=", integer_to_list(M), ",", parts_text(I, Msg, C)],
        {startdown, {'StartDownMessage', lists:nth(1 + M, [cpdlc, dsc]), {'ProtectedDownlinkMessage', arcs_value(I), Msg, C}}}).

date_time() ->
    [Y, Mo, D, H, Mi, S] = [pick([Lo, Hi, between(Lo, Hi)]) || {Lo, Hi} <- [{1996, 2095}, {1, 12}, {1, 31}, {0, 23}, {0, 59}, {0, 59}]],
    {dotted([Y, Mo, D, H, Mi, S]), {'DateTimeGroup', {'Date', Y, Mo, D}, {'Timehhmmss', {'Time', H, Mi}, S}}}.

forward() ->
    {Text, Date} = date_time(),
    Id = random_text(between(2, 8)), Address = random_bits(24), Way = pick([upElementIDs, downElementIDs]),
    Body = random_bits(pick([0, 1, 127, 128, random(600)])),
    pdu('GroundPDUs', ["forward:date=", Text, ",aircraft=", hex(list_to_binary(Id)), ",address=", hex(Address), ",",
                       case Way of upElementIDs -> "up="; _ -> "down=" end, bits_text(Body)],
        {forward, {'ATCForwardMessage', {'ForwardHeader', Date, Id, Address}, {Way, Body}}}).

%% ---- the message

%% The alternatives of an element type, from the module's text: {number, name, argument type}.
elements(Letter) ->
    {ok, Text} = file:read_file(filename:join(get(here), "PeatribbonPDUs.asn")),
    {match, Found} = re:run(Text, "\\b(" ++ Letter ++ "M(\\d+)\\w+) (\\w+)", [global, {capture, [2, 1, 3], list}]),
    [{list_to_integer(N), list_to_atom(Name), list_to_atom(Type)} || [N, Name, Type] <- Found].

messages() ->
    [[[pdu(Type, Text, Value) || _ <- lists:seq(1, 60), {Text, Value} <- [argument(Type)]]
      || Type <- ['Level', 'LevelLevel', 'Time', 'Code', 'FreeText', 'Facility', 'FacilityDesignation', 'ATISCode']],
     pdu('Facility', hex(<<"ABCD">>), {facilityDesignation, "ABCD"}),
     messages('ATCUplinkMessage', "u"), messages('ATCDownlinkMessage', "d")].

messages(Type, Letter) ->
    %% an alternative behind the extension marker is coded as an addition, which the card refuses
    Known = [E || {N, Name, _} = E <- elements(Letter), Name =/= 'uM237NULL', N >= 0],
    Rich = [E || {_, _, T} = E <- Known, T =/= 'NULL'],
    [[message(Type, [E]) || E <- Known],
     [message(Type, [pick(case random(3) of 0 -> Known; _ -> Rich end) || _ <- lists:seq(1, N)]) || N <- [1, 2, 3, 4, 5], _ <- lists:seq(1, 100)]].

message(Type, Chosen) ->
    Id = pick([0, 63, random(64)]), Ref = perhaps(fun() -> pick([0, 63, random(64)]) end), Ack = random(2),
    {DateText, Date} = date_time(),
    Made = [element_value(E) || E <- Chosen],
    Data = list_to_atom(atom_to_list(Type) ++ "Data"),
    Text = ["id=", integer_to_list(Id), ",ref=", optional(Ref), ",date=", DateText, ",ack=", integer_to_list(Ack), ",elements=",
            lists:join("+", [T || {T, _} <- Made])],
    pdu(Type, Text, {Type, {'ATCMessageHeader', Id, Ref, Date, lists:nth(1 + Ack, [required, notRequired])},
                     {Data, [V || {_, V} <- Made], asn1_NOVALUE}}).

element_value({N, Name, Type}) ->
    {Text, Value} = argument(Type),
    {[integer_to_list(N), ":", Text], {Name, Value}}.

argument('NULL') -> {"-", 'NULL'};
argument('Level') -> level();
argument('LevelLevel') -> {A, V} = level(), {B, W} = level(), {[A, "/", B], [V, W]};
argument('Time') -> [H, M] = [pick([0, Hi, random(Hi + 1)]) || Hi <- [23, 59]], {dotted([H, M]), {'Time', H, M}};
argument('Code') -> D = random_list(4, 0, 7), {dotted(D), D};
argument('FreeText') -> text_argument(pick([1, 2, 255, 256, between(1, 60), between(1, 60), between(1, 60)]));
argument('FacilityDesignation') -> text_argument(between(4, 8));
argument('ATISCode') -> text_argument(1);
argument('Facility') ->
    case random(3) of
        0 -> {"none", {noFacility, 'NULL'}};
        _ -> {Text, Value} = text_argument(between(4, 8)), {Text, {facilityDesignation, Value}}
    end.

text_argument(N) -> T = random_text(N), {hex(list_to_binary(T)), T}.

level() ->
    case random(2) of
        0 -> {T, V} = level_type(), {T, {singleLevel, V}};
        _ -> {A, V} = level_type(), {B, W} = level_type(), {[A, "~", B], {blockLevel, [V, W]}}
    end.

level_type() ->
    I = random(4),
    {Name, Lo, Hi} = lists:nth(1 + I, [{levelFeet, -60, 7000}, {levelMeters, -30, 25000}, {levelFlightLevel, 30, 700}, {levelFlightLevelMetric, 100, 2500}]),
    V = pick([Lo, Hi, between(Lo, Hi), between(Lo, Hi)]),
    {[integer_to_list(I), ".", integer_to_list(V)], {Name, V}}.

%% ---- reading

decode_lines(Module, Type) ->
    case io:get_line("") of
        eof -> ok;
        Line ->
            Hex = string:trim(Line),
            Bytes = case Hex of "-" -> <<>>; _ -> << <<(list_to_integer([A, B], 16))>> || [A, B] <- pairs(Hex) >> end,
            case catch Module:decode(Type, Bytes) of
                {ok, Value} -> io:format("~0p~n", [Value]);
                _ -> io:format("refused~n")
            end,
            decode_lines(Module, Type)
    end.

pairs([A, B | Rest]) -> [[A, B] | pairs(Rest)];
pairs([]) -> [].
