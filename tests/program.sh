#!/usr/bin/env bash
# What only the built program shows: its standard streams, its exit status and the usage line.
# Use: program.sh PROGRAM, from anywhere. Prints a line for each check, and ends with 1 if one fails.
. "$(dirname "$(readlink -f "$0")")/common.sh"

usage='usage: gpsrelay decode|replay|generate|pseudo|lines|serve'
sentence='$GPRMC,123519,A,4807.038,N,01131.000,E,022.4,084.4,230394,003.1,W*6A'
line='{"class":"TPV","device":"stdin","mode":2,"time":"1994-03-23T12:35:19.000Z","lat":48.117300000,"lon":11.516666667,"track":84.4000,"speed":11.524}'
later='$GPGGA,123520,4807.038,N,01131.000,E,1,08,0.9,545.4,M,46.9,M,,*4D'
later_line='{"class":"TPV","device":"stdin","mode":3,"time":"1994-03-23T12:35:20.000Z","lat":48.117300000,"lon":11.516666667,"altMSL":545.400,"geoidSep":46.900}'
printf '%s\r\n' "$sentence" >"$place/in"
printf '%s\r\n' "$line" >"$place/line"

run decode
check 'decode: status' 0 "$status"
check 'decode: the line of the fix' "$(od -c "$place/line")" "$(od -c "$place/out")"
check 'decode: nothing on standard error' '' "$(cat "$place/err")"

check 'decode from a pipe' "$line" "$( (printf '%s' "$sentence"; sleep 0.2; printf '\r\n') | "$program" decode | tr -d '\r')"

# An epoch's line comes out while the pipe is still open: the second sentence closes the epoch of the first.
mkfifo "$place/pipe"
"$program" decode <"$place/pipe" >"$place/out" 2>"$place/err" &
exec 3>"$place/pipe"
printf '%s\r\n%s\r\n' "$sentence" "$later" >&3
for _ in $(seq 600); do [ -s "$place/out" ] && break; sleep 0.1; done
check 'an epoch closes while the pipe is open' "$line" "$(tr -d '\r' <"$place/out")"
exec 3>&-
wait $!
check 'the pipe ends: status' 0 $?
check 'the pipe ends: the line of the last fix' "$later_line" "$(tail -n +2 "$place/out" | tr -d '\r')"

run decode --history 69
check 'one byte more than the history: status' 5 "$status"
check 'one byte more than the history: no line' '' "$(cat "$place/out")"
run decode --history 70
check 'as many bytes as the history: status' 0 "$status"

for words in '' 'frob' 'decode --history 0' 'decode --history x' 'decode more' 'pseudo more' 'lines more' 'lines --history 5' 'replay --queue 0' 'generate' 'generate --seed 1' 'generate --seed 1 --size 0' 'serve'; do
    run $words
    check "refused words '$words': status" 2 "$status"
    check "refused words '$words': nothing on standard output" '' "$(cat "$place/out")"
    check "refused words '$words': the reason and then the usage" 'gpsrelay: usage: gps' "$(head -n 2 "$place/err" | cut -c 1-10 | tr -d '\n')"
done

for words in $'dec\xffode' $'decode --history \xff' $'decode \xff'; do
    run $words
    check "words that are no text: status" 2 "$status"
    check "words that are no text: nothing on standard output" '' "$(cat "$place/out")"
    check "words that are no text: the usage line" "$usage" "$(tail -n 1 "$place/err")"
done

# bytes NUMBER..: these bytes; word WIDTH NUMBER: the WIDTH bytes of a number, the lowest first, as numbers
bytes() { local octal; printf -v octal '\\%03o' "$@"; printf "$octal"; }
word() { local at; for ((at = 0; at < $1; at++)); do echo $((($2 >> (8 * at)) & 255)); done; }

# frame CLASS ID NUMBER..: the frame of this payload
frame() {
    local inner=("$1" "$2" $(word 2 $(($# - 2))) "${@:3}") a=0 b=0 byte
    for byte in "${inner[@]}"; do a=$(((a + byte) & 255)) b=$(((b + a) & 255)); done
    bytes 181 98 "${inner[@]}" $a $b
}

# pvt SECOND LONGITUDE LATITUDE HEIGHT SPEED TRACK FIX: a NAV-PVT of 2024-06-01, 12 h, its NAV-EOE after it
pvt() {
    frame 1 7 $(word 4 $((1000 * $1))) $(word 2 2024) 6 1 12 $(($1 / 60)) $(($1 % 60)) 3 $(word 4 0) $(word 4 0) "$7" $(($7 > 1)) 0 8 \
        $(word 4 "$2") $(word 4 "$3") $(word 4 $(($4 + 47000))) $(word 4 "$4") $(word 8 0) $(word 4 0) $(word 4 0) $(word 4 -300) \
        $(word 4 "$5") $(word 4 "$6") $(word 8 0) $(word 2 150) $(word 2 0) $(word 4 0) $(word 4 0) $(word 4 0)
    frame 1 97 $(word 4 $((1000 * $1)))
}

# What a u-blox receiver sends comes back from its sentences, but for the height above the ellipsoid and the climb.
pvt 0 0 0 0 0 0 0 >"$place/in"
for ((second = 1; second < 90; second++)); do
    pvt "$second" $((115166667 - 3000000 * second)) $((-481173000 + 7654321 * second)) $((545400 - 9000 * second)) $((13 * second)) $((400000 * second)) 3
done >>"$place/in"
run decode
check 'u-blox bytes: status' 0 "$status"
check 'u-blox bytes: fixes' 90 "$(wc -l <"$place/out")"
sed -E 's/"altHAE":[^,]*,//; s/,"climb":[^}]*//' "$place/out" >"$place/wanted"
run pseudo
check 'u-blox bytes as sentences: status' 0 "$status"
check 'u-blox bytes as sentences: two for each fix' '90 90' "$(grep -c '^[$]GPRMC,' "$place/out") $(grep -c '^[$]GPGGA,' "$place/out")"
cp "$place/out" "$place/in"
run decode
check 'the sentences are read: status' 0 "$status"
check 'the sentences are read: the same fixes' "$(cksum <"$place/wanted")" "$(cksum <"$place/out")"
run pseudo
check 'sentences as sentences: the same' "$(cksum <"$place/in")" "$(cksum <"$place/out")"

# The lines that decode writes are read back; a line that it does not write is refused.
run decode
cp "$place/out" "$place/in"
run lines
check 'lines: status' 0 "$status"
check 'lines: their numbers' 'version 0 devices 0 device 0 watch 0 poll 0 tpv 90 sky 0 toff 0 pps 0 error 0' "$(cat "$place/out")"
{ printf '%s\r\n' "$line" "${line/11.524/11.52}"; } >"$place/in"
run lines
check 'a line that is none: status' 6 "$status"
check 'a line that is none: its number' 'bad line 2' "$(cat "$place/out")"
printf '%s\r\n%s' "$line" "$line" >"$place/in"
run lines
check 'a line without its end: status' 6 "$status"
check 'a line without its end: its number' 'bad line 2' "$(cat "$place/out")"
head -c 1048577 /dev/zero >"$place/in"
run lines
check 'a line that is too long: status' 6 "$status"
: >"$place/in"
run lines
check 'no lines: status' 0 "$status"
"$program" lines <"$samples" >"$place/out" 2>"$place/err"
check 'lines, and a read that fails: status' 3 $?
check 'lines, and a read that fails: nothing is written' '' "$(cat "$place/out")"
printf '%s\r\n' "$sentence" >"$place/in"

"$program" frob 2>&-
check 'refused words, standard error closed: status' 2 $?
"$program" $'\xff' 2>&-
check 'words that are no text, standard error closed: status' 2 $?

"$program" decode <"$samples" >"$place/out" 2>"$place/err"
check 'a read that fails: status' 3 $?
check 'a read that fails: nothing is written' '' "$(cat "$place/out")"
"$program" decode <&- >"$place/out" 2>"$place/err"
check 'standard input closed: status' 3 $?
"$program" decode <"$place/in" >&- 2>"$place/err"
check 'standard output closed: status' 4 $?
"$program" decode </dev/null >&- 2>"$place/err"
check 'standard output closed, and nothing to write: status' 0 $?

if [ -w /dev/full ]; then
    "$program" decode <"$place/in" >/dev/full 2>"$place/err"
    check 'a write that fails: status' 4 $?
    "$program" frob 2>/dev/full
    check 'refused words, standard error full: status' 2 $?
fi

# The reader takes ten lines and closes the pipe: the program ends by itself.
(for _ in $(seq 200); do cat "$samples/drive.nmea"; done) >"$place/in"
{ timeout 60 "$program" decode <"$place/in" 2>"$place/err"; echo $? >"$place/status"; } | head -n 10 >"$place/out"
check 'a pipe that is closed early: ten lines' 10 "$(wc -l <"$place/out")"
check 'a pipe that is closed early: status' 4 "$(cat "$place/status")"

# limited KILOBYTES WORD..: the status under a limit of memory; 126 and 127 say that the system could not begin the program
limited() {
    (ulimit -v "$1"; shift; exec "$program" "$@" <"$place/in" >"$place/out" 2>"$place/err") 2>"$place/shell"
}

# One epoch of 1,600 satellites, whose line takes some hundred kilobytes. Under each limit of memory the program ends by 0 or by 7, and
# refused words by 2 or by 7.
for ((id = 1; id <= 797; id += 4)); do
    for signal in 1 2; do
        summed "GPGSV,1,1,04,$id,40,083,46,$((id + 1)),17,308,41,$((id + 2)),07,344,39,$((id + 3)),22,228,45,$signal"
        printf '%s\r\n' "$summed"
    done
done >"$place/in"
statuses='' refused=''
for limit in $(seq 2000 20 4500); do
    limited "$limit" decode
    statuses+="$? "
    limited "$limit" frob
    refused+="$? "
done
check 'limits of memory: no status but 0 and 7' '' "$(tr ' ' '\n' <<<"$statuses" | grep -vxE '0|7|126|127|')"
check 'limits of memory: both' '0 7 ' "$(tr ' ' '\n' <<<"$statuses" | grep -xE '0|7' | sort -u | tr '\n' ' ')"
check 'limits of memory, refused words: no status but 2 and 7' '' "$(tr ' ' '\n' <<<"$refused" | grep -vxE '2|7|126|127|')"

cp "$samples/drive.nmea" "$place/in"
run decode
check 'the sample drive: status' 0 "$status"
check 'the sample drive: fixes' 180 "$(grep -c '"class":"TPV"' "$place/out")"
check 'the sample drive: skies' 180 "$(grep -c '"class":"SKY"' "$place/out")"
check 'the sample drive: nothing else' 0 "$(grep -vc '"class":"\(TPV\|SKY\)"' "$place/out")"

# Its first two lines are of a second without a fix, and lines 21 and 22 of the first second with one.
without='{"class":"TPV","device":"stdin","mode":1,"time":"2024-06-01T10:15:00.000Z"}'
sky() {
    local text='{"class":"SKY","device":"stdin","time":"'$1'","pdop":'$2',"hdop":'$3',"vdop":'$4',"nSat":8,"uSat":'$5',"satellites":[' satellite
    for satellite in 2,17,308,41 5,62,112,47 12,7,344,33 14,22,228,45 21,38,71,44 25,51,190,46 29,74,20,48 31,11,265,36; do
        IFS=, read -r id el az ss <<<"$satellite"
        used=false
        [[ $5 != 0 && " 5 14 21 25 29 " == *" $id "* ]] && used=true
        text+='{"PRN":'$id',"el":'$el',"az":'$az',"ss":'$ss',"used":'$used',"gnssid":0,"svid":'$id'},'
    done
    printf '%s]}' "${text%,}"
}
with='{"class":"TPV","device":"stdin","mode":3,"time":"2024-06-01T10:15:10.000Z","lat":48.117300000,"lon":11.516666667,"altMSL":545.400,"geoidSep":46.900,"track":84.4000,"speed":13.900}'
nth() { sed -n "$1p" "$place/out" | tr -d '\r'; }
check 'the sample drive: the first fix' "$without" "$(nth 1)"
check 'the sample drive: the first sky' "$(sky 2024-06-01T10:15:00.000Z 99.99 99.99 99.99 0)" "$(nth 2)"
check 'the sample drive: the fix of the eleventh second' "$with" "$(nth 21)"
check 'the sample drive: the sky of the eleventh second' "$(sky 2024-06-01T10:15:10.000Z 1.83 0.94 1.57 5)" "$(nth 22)"

exit $failed
