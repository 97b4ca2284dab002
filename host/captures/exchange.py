"""A gRPC server and a client on the loopback exchange stream messages as they are given, as raw bytes.

Usage: exchange.py PORT REQUESTS RESPONSES, with two files that have a message in hex on each line. The client sends
its lines in order on one stream; the server answers each with its own line of the same place and sends what it has
left at the end. Exits with 1 where the client received anything else than the responses.
"""
import sys
from concurrent import futures

import grpc

METHOD = '/p4.v1.P4Runtime/StreamChannel'


def messages(path):
    with open(path) as lines:
        return [bytes.fromhex(line) for line in lines]


def main(port, requests, responses):
    sent, answers = messages(requests), messages(responses)

    def answered(received, context):
        left = iter(answers)
        for _, answer in zip(received, left):
            yield answer
        yield from left

    class Handler(grpc.GenericRpcHandler):
        def service(self, call):
            if call.method == METHOD:
                return grpc.stream_stream_rpc_method_handler(answered)
            return None

    server = grpc.server(futures.ThreadPoolExecutor(max_workers=2))
    server.add_generic_rpc_handlers((Handler(),))
    server.add_insecure_port(f'127.0.0.1:{port}')
    server.start()
    with grpc.insecure_channel(f'127.0.0.1:{port}') as channel:
        received = list(channel.stream_stream(METHOD)(iter(sent), timeout=20))
    server.stop(None).wait()
    return received == answers


if __name__ == '__main__':
    sys.exit(0 if main(*sys.argv[1:]) else 1)
