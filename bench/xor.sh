#!/usr/bin/env bash
# Prints how many MB/s our XOR takes in beside the same loop in C, compiled by clang -O2, over 64 KiB again and again.
# Needs clang. It is no part of the gate.
. "$(dirname "$(readlink -f "${BASH_SOURCE[0]}")")/lib.sh"
rounds=200000

build_ours parity <<RATTLE
#![tactic(auto)]

use parity::xor_into;
use std::io;

fn main(rt: HostRuntime) -> io::Result<()> {
    let mut sum = vec![in rt.alloc(); 0x5a_u8; 1 << 16]?;
    let data = vec![in rt.alloc(); 0xa7_u8; 1 << 16]?;
    for _ in 0..${rounds}_u32 {
        if sum.len() == data.len() {
            xor_into(&mut sum, &data);
        }
    }
    let first = sum.first().copied().unwrap_or(0);
    println!(rt; "{first}")
}
RATTLE
cat >"$room/xor.c" <<C
#include <stdio.h>
#include <string.h>

static unsigned char sum[1 << 16], data[1 << 16];

__attribute__((noinline)) static void xor_into(unsigned char *a, const unsigned char *b, size_t count) {
    for (size_t i = 0; i < count; i++)
        a[i] ^= b[i];
}

int main(void) {
    memset(sum, 0x5a, sizeof sum);
    memset(data, 0xa7, sizeof data);
    for (int round = 0; round < $rounds; round++)
        xor_into(sum, data, sizeof sum);
    printf("%d\n", sum[0]);
}
C
clang -O2 -o "$room/theirs" "$room/xor.c"
compare xor_into $((rounds * 65536)) C
