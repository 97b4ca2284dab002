#!/bin/sh
# A gRPC client and server exchange stream messages on the loopback, tshark captures
# them, and the program `captured` must print what went in. The same for a capture of
# such an exchange that is stored here: where capturing is not permitted, for that alone.
# Usage: host/captures/test.sh CAPTURED SCRATCH, with a folder for what is made. The
# first line says what was read.
set -u
cd "$(dirname "$0")/../.." || exit 1
here=host/captures
captured=$1
scratch=$2
stored=$here/stream.pcap
# The port of P4Runtime, which the stored capture has.
stored_port=9559
live=$scratch/live.pcapng
live_port=$((20000 + $$ % 20000))

# A payload that takes more than one DATA frame of HTTP/2.
long=$(head -c 20000 /dev/zero | tr '\0' x)

# encoded KIND: each line of text as a message, in hex.
encoded() {
    sed "s/LONG/$long/" | while IFS= read -r text; do
        echo "$text" | protoc --proto_path=host/arbitration/peer \
            --encode="hoefspanker.$1" stream.proto | xxd -p | tr -d '\n'
        echo
    done
}

# Begins to capture. Fails where that is not permitted.
begin() {
    tshark -i lo -f "tcp port $live_port" -w "$live" -q >"$scratch/tshark.log" 2>&1 &
    capturing=$!
    for _ in $(seq 100); do
        [ ! -s "$live" ] || { sleep 1 && return; }
        kill -0 "$capturing" 2>/dev/null || return 1
        sleep 0.1
    done
    kill "$capturing"
    return 1
}

exchange() {
    encoded StreamMessageRequest <"$here/requests.txt" >"$scratch/requests.hex"
    encoded StreamMessageResponse <"$here/responses.txt" >"$scratch/responses.hex"
    /usr/bin/python3 "$here/exchange.py" "$live_port" "$scratch/requests.hex" \
        "$scratch/responses.hex"
    exchanged=$?
    sleep 1
    kill -INT "$capturing"
    wait "$capturing"
    return "$exchanged"
}

# reads CAPTURE PORT: what `captured` prints of both sides of a capture.
reads() {
    prints "$1" "$2" dstport requests && prints "$1" "$2" srcport responses
}

# prints CAPTURE PORT SIDE EXPECTED: what one side sent.
prints() {
    tshark -r "$1" -d "tcp.port==$2,http2" -Y "http2.type==0 && tcp.$3==$2" \
        -T fields -e http2.data.data 2>"$scratch/tshark.log" |
        tr -cd 0-9a-f | xxd -r -p | "$captured" | diff - "$here/$4.out"
}

mkdir -p "$scratch"
rm -f "$live"
if begin; then
    echo "from the loopback, captured now, and from the stored capture"
    exchange || { echo "the exchange failed"; exit 1; }
    reads "$live" "$live_port" || exit 1
else
    echo "from the stored capture alone: capturing is not permitted here"
fi
reads "$stored" "$stored_port"
