#!/usr/bin/env python3
"""Prints a script of some 80,000 turns in eight slots, over 96 blocks of 64 addresses.

Each slot's node claims a block and fills it, the slots turn by turn beside each other; then every
handle is deleted. No race is lost, so the number of turns is known.
"""

NODES, BLOCKS, SIZE = 8, 12, 64


def main():
    pool = '{"blockSize":26,"cidr":"10.0.0.0/18","disabled":false,"name":"pods"}'
    print(f'row 1 pools {{"pools":[{pool}]}}')
    for block in range(BLOCKS):
        for place in range(SIZE):
            for node in range(NODES):
                handle = f"net.c{node}-{block}-{place}"
                print(f'begin {node} {{"add":{{"handle":"{handle}","node":"node-{node}"}}}}')
                if place == 0:
                    print(f"turn {node} 17")
            if place > 0:
                for _ in range(8):
                    for node in range(NODES):
                        print(f"turn {node}")
    for block in range(BLOCKS):
        for place in range(SIZE):
            for node in range(NODES):
                print(f'begin {node} {{"del":{{"handle":"net.c{node}-{block}-{place}"}}}}')
            for _ in range(5):
                for node in range(NODES):
                    print(f"turn {node}")


if __name__ == "__main__":
    main()
