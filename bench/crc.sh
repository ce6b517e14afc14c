#!/usr/bin/env bash
# Prints how many MB/s our CRC-32 takes in beside zlib's, over the same mebibyte a thousand times.
# Needs a C compiler and zlib's header. It is no part of the gate.
. "$(dirname "$(readlink -f "${BASH_SOURCE[0]}")")/lib.sh"
rounds=1000

build_ours shr_base <<RATTLE
#![tactic(auto)]

use shr_base::crc32;
use std::io;

fn main(rt: HostRuntime) -> io::Result<()> {
    let mut data = vec![in rt.alloc(); 0x5a_u8; 1 << 20]?;
    let mut sum = 0;
    for _ in 0..${rounds}_u32 {
        sum ^= crc32(&data);
        if let Some(first) = data.first_mut() {
            *first = (sum & 0xff) as u8;
        }
    }
    println!(rt; "{sum}")
}
RATTLE
cat >"$room/zlib.c" <<C
#include <stdio.h>
#include <string.h>
#include <zlib.h>

static unsigned char data[1 << 20];

int main(void) {
    unsigned long sum = 0;
    memset(data, 0x5a, sizeof data);
    for (int round = 0; round < $rounds; round++) {
        sum ^= crc32(0, data, sizeof data);
        data[0] = sum & 0xff;
    }
    printf("%lu\n", sum);
}
C
cc -O2 -o "$room/theirs" "$room/zlib.c" -lz
compare crc32 $((rounds * 1048576)) zlib
