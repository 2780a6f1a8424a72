#!/usr/bin/env bash
# Scripts played by the built program: the sample one, made ones, and lines that none may have.
# Use: replay.sh PROGRAM, from anywhere. Prints a line for each check, and ends with 1 if one fails.
. "$(dirname "$(readlink -f "$0")")/common.sh"

# same NAME WANTED: the output is this file, and the status 0
same() {
    check "$1: status" 0 "$status"
    check "$1: the output" '' "$(diff "$2" "$place/out")"
    check "$1: nothing on standard error" '' "$(cat "$place/err")"
}

script=$samples/two_devices.script
wanted=$samples/two_devices.out

cp "$script" "$place/in"
run replay
same 'two devices' "$wanted"
for history in 1 70 1000; do
    run replay --history "$history"
    same "two devices, generations of $history symbols" "$wanted"
done

sed 's/$/\r/' "$script" >"$place/in"
run replay
same 'two devices, lines ended by CR LF' "$wanted"
head -c -1 "$script" >"$place/in"
run replay
same 'two devices, the last line without its end' "$wanted"
(while IFS= read -r -N 7 piece; do printf '%s' "$piece"; done; printf '%s' "$piece") <"$script" | "$program" replay >"$place/out" 2>"$place/err"
status=$?
same 'two devices, in pieces through a pipe' "$wanted"

# What a script did before a refused line stays, and nothing comes after it.
refused() {
    run replay
    check "$1: status" 6 "$status"
    check "$1: what came before it, and its number" "$(head -n 10 "$wanted"; echo "bad line $2")" "$(cat "$place/out")"
}
(cat "$script"; echo 'take 9 1'; echo 'take 0 1') >"$place/in"
refused 'a line that is refused' 44
(cat "$script"; printf '#%4096s' '') >"$place/in"
refused 'a line of 4,097 bytes without its end' 44
(cat "$script"; printf '#%4095s\r\n' ''; echo 'frob') >"$place/in"
refused 'a line of 4,096 bytes, and then one that is refused' 45

version='s0 {"class":"VERSION","release":"gpsrelay-1","rev":"1","proto_major":3,"proto_minor":1}\x0d\x0a'

# many N TEXT: the text N times
many() { local all; printf -v all '%*s' "$1" ''; printf '%s' "${all// /$2}"; }

# Each of these lines, after four good ones, of which the last takes an item, is refused.
wrong=''
while IFS= read -r line; do
    printf '%s\n' 'device g' 'monitor 0 0' 'open 0' 'take 0 1' "$line" 'take 0 1' >"$place/in"
    run replay
    [ "$status $(cat "$place/out")" = "6 $version"$'\n''bad line 5' ] || wrong+="'${line:0:60}' "
done <<END
frob
OPEN 1
 open 1
open  1
open 1 
open
open x
open 01234567890
open 0
open 2
open 1 0
open 1 65537
say 0
say 0 
say 1 ?VERSION;
say 0 $(many 512 x)
part 0 
part 1 ?VERSION;
part 0 $(many 512 x)
input 0 
input 0 3
input 0 3f3
input 0 3g
input 1 3f
input 0 $(many 513 3f)
hang 1
take 0
take 0 0
take 0 65537
take 1 1
monitor 0 0
monitor 2 0
monitor 1 2
store 0 0
store 0 1001
store 2 1
load 0 0
load 0 1001
load 1 1
bytes 0 1.000000000 
bytes 0 1.000000000 b
bytes 0 1.000000000 b5 62
bytes 0 1.00000000 b5
bytes 0 1.0000000000 b5
bytes 0 .000000000 b5
bytes 0 01234567890.000000000 b5
bytes 0 1 b5
bytes 1 1.000000000 b5
bytes 0 1.000000000 $(many 513 b5)
text 0 1.000000000 
text 1 1.000000000 x
text 0 1.000000000 $(many 511 x)
edge 0 rise 1.000000000#1
edge 0 assert 1.000000000#4294967296
edge 0 assert 1.000000000
edge 1 assert 1.000000000#1
end 1
lose 1
device h
segment 0 1
$(many 4097 x)
END
check 'lines that are refused' '' "$wrong"

# Each of these is refused after an event that ended what it speaks of.
wrong=''
while IFS=/ read -r event line; do
    printf '%s\n' 'device g' 'open 0' "$event" "$line" >"$place/in"
    run replay
    [ "$status $(cat "$place/out")" = '6 bad line 4' ] || wrong+="'$event' '$line' "
done <<'END'
end 0/bytes 0 1.000000000 b5
end 0/edge 0 assert 1.000000000#1
end 0/lose 0
lose 0/text 0 1.000000000 x
lose 0/end 0
hang 0/say 0 ?VERSION;
hang 0/input 0 3f
hang 0/hang 0
END
check 'lines on what has ended' '' "$wrong"

# Declarations that are refused: each line is one script, / is written for its line ends.
wrong=''
while IFS= read -r declared; do
    tr / '\n' <<<"$declared" >"$place/in"
    run replay
    lines=$(wc -l <"$place/in")
    [ "$status $(cat "$place/out")" = "6 bad line $lines" ] || wrong+="'${declared:0:60}' "
done <<END
device
device 
device a b
device a"
device $(many 65 x)
device a/device a
device a/device b/device c/device d/device e/device f/device g/device h/device i
segment 0 0
device a/segment 2 0
device a/segment 0 1073741824
END
check 'declarations that are refused' '' "$wrong"

# The greatest numbers and lengths are taken.
printf '%s\n' "device $(many 64 x)" 'segment 1 1073741823' 'monitor 0 1' 'open 0 65536' 'take 0 65536' 'store 1 1000' 'load 0 1' 'load 0 1' \
    "say 0 $(many 511 ' ')" "part 0 $(many 511 ' ')" "input 0 $(many 512 20)" "text 0 9999999999.999999999 $(many 510 x)" \
    "bytes 0 0.000000000 $(many 512 aB)" 'edge 0 clear 0000000000.000000000#4294967295' "#$(many 4095 x)" >"$place/in"
run replay
printf '%s\n' "$version" 'm0 notready 2147483646 0' 's0 drained daemonend 1' >"$place/wanted"
same 'the greatest numbers and lengths' "$place/wanted"

# A script that ends inside a line: what is there of it is a line.
printf 'open 0\ntake 0 1\ninput 0 3f3' >"$place/in"
run replay
check 'a script that ends inside a line' "6 $version"$'\n''bad line 3' "$status $(cat "$place/out")"

# 64 sessions may be open, and 64 monitors look on.
for count in {0..64}; do echo "open $count"; done >"$place/in"
run replay
check 'a 65th session' '6 bad line 65' "$status $(cat "$place/out")"
(echo 'device g'; for count in {0..64}; do echo "monitor $count 0"; done) >"$place/in"
run replay
check 'a 65th monitor' '6 bad line 66' "$status $(cat "$place/out")"

# A session asks 65,576 times, and 65,536 requests are answered.
(echo 'open 0'; for _ in {1..1171}; do echo "say 0 $(many 56 '?VERSION;')"; echo 'take 0 64'; done) >"$place/in"
(for _ in {1..65537}; do printf '%s\n' "$version"; done; echo 's0 drained toomany 65537') >"$place/wanted"
for history in 1 16777216; do
    run replay --history "$history"
    same "more requests than are answered, history $history" "$place/wanted"
done

# A failed read, and a failed write.
"$program" replay <"$samples" >"$place/out" 2>"$place/err"
check 'a script that cannot be read: status' 3 $?
check 'a script that cannot be read: nothing is written' '' "$(cat "$place/out")"
"$program" replay <"$script" >&- 2>"$place/err"
check 'a script, standard output closed: status' 4 $?

# made SEED SIZE: the script that generate makes, written once more.
made() {
    local x=$(($1 % 2147483648)) t device f time body
    printf '%s\n' 'device a' 'device b' 'monitor 0 0' 'open 0' 'say 0 ?WATCH={"json":true};' \
        'open 1' 'say 1 ?WATCH={"nmea":true,"device":"b"};' 'open 2' 'say 2 ?WATCH={"pps":true};'
    for ((t = 0; t < $2; t++)); do
        x=$(((1103515245 * x + 12345) % 2147483648))
        printf -v f '%05d' $((x / 8 % 100000))
        printf -v time '%02d%02d%02d' $((12 + t / 3600)) $((t / 60 % 60)) $((t % 60))
        for device in 0 1; do echo "edge $device assert $((1717243200 + t)).000000000#$((t + 1))"; done
        for device in 0 1; do
            for body in "GPRMC,$time,A,4807.$f,N,01131.$f,E,0.50,84.40,010624,,,A" 'GPVTG,84.40,T,,M,0.50,N,0.93,K,A' \
                "GPGGA,$time,4807.$f,N,01131.$f,E,1,04,0.90,545.4,M,46.9,M,," 'GPGSA,A,3,01,02,12,14,,,,,,,,,2.50,1.30,2.10' \
                'GPGSV,1,1,04,01,40,083,46,02,17,308,41,12,07,344,39,14,22,228,45' "GPGLL,4807.$f,N,01131.$f,E,$time,A,A"; do
                summed "$body"
                printf 'text %d %d.100000000 %s\n' "$device" $((1717243200 + t)) "$summed"
            done
        done
        printf '%s\n' 'store 0 13' 'store 1 13' 'store 2 13' 'store 3 13' 'load 0 12' 'take 0 64' 'take 1 64' 'take 2 64'
    done
}

# generate is replay of the script that it makes, but for the items and the readings.
printf '%s\n' 's0 drained daemonend 46' 's1 drained daemonend 62' 's2 drained daemonend 40' \
    'u0 published 10 count 20 left 0' 'u1 published 9 count 18 left 0' \
    'u2 published 10 count 20 left 0' 'u3 published 9 count 18 left 0' >"$place/wanted"
: >"$place/in"
run generate --seed 1 --size 10
same 'ten seconds that are made' "$place/wanted"
for history in 1 16777216; do
    made 1 10 >"$place/in"
    run replay --history "$history"
    check "ten seconds that are made and replayed, history $history: status" 0 "$status"
    check "ten seconds that are made and replayed, history $history: closing lines" "$(cat "$place/wanted")" "$(grep -E '^(s. drained|u)' "$place/out")"
    check "ten seconds that are made and replayed, history $history: fixes" 20 "$(grep -c '^s0 {"class":"TPV"' "$place/out")"
    check "ten seconds that are made and replayed, history $history: samples" 10 "$(grep -c '^m0 taken' "$place/out")"
done
: >"$place/in"
printf '%s\n' 's0 drained daemonend 40006' 's1 drained daemonend 60002' 's2 drained daemonend 40000' \
    'u0 published 10000 count 20000 left 0' 'u1 published 9999 count 19998 left 0' \
    'u2 published 10000 count 20000 left 0' 'u3 published 9999 count 19998 left 0' >"$place/wanted"
run generate --seed 1 --size 10000
same 'ten thousand seconds that are made' "$place/wanted"

exit $failed
