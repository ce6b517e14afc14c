#!/usr/bin/env bash
# Prints what a read of a volume costs beside a read of the rack of arrays below it, with 1 segment and with 1024: the same
# reads here and there, of arrays in memory. It is no part of the gate.
. "$(dirname "$(readlink -f "${BASH_SOURCE[0]}")")/lib.sh"

# proof FUNCTION FILE: a part of the program's proof, on standard input.
proof() {
  mkdir -p "$room/crates/ours/proofs/$1"
  cat >"$room/crates/ours/proofs/$1/$2"
}

proof read_all Invariants.antt <<'ANTT'
use Rattle.ours.proofs.read_all.Given as goal

abbrev pub invariant-loop-at : goal.invariant-loop-at
invariant-loop-at g l = (g.R.Rack.seen l.rack).fit
ANTT

proof extend_all Invariants.antt <<'ANTT'
use Rattle.std.proofs.Common.{◌≡◌}
use Rattle.rack_mem.specs.MemBay.{memory}
use Rattle.rack_mem.specs.Memory.{seen_of}
use Rattle.lvm_group.specs.Shown.{volume_of}
use Rattle.lvm_group.specs.Volume.{below_of, linear}
use Rattle.ours.proofs.extend_all.Given as goal

abbrev pub invariant-loop-extents : goal.invariant-loop-extents
invariant-loop-extents l = (volume_of (linear l.volume) (seen_of (memory (below_of l.volume)))).fit × ((linear l.volume).extent ≡ 128)
ANTT

proof one_segment Answers.antt <<'ANTT'
use Rattle.std.proofs.Common.{◌≡◌, ℕ, zero, suc, ◌+◌, ◌*◌, ◌≤◌, [], ◌∷◌, sym, ◌∙◌, arith}
use Rattle.lvm_group.specs.Own.{HoldAll}
use Rattle.rack_mem.specs.MemBay.{memory}
use Rattle.rack_mem.specs.Memory.{seen_of}
use Rattle.ours.proofs.one_segment.Goals as goal

hold_all : (f : ℕ → ℕ) → f 0 ≡ 67584 → HoldAll 128 f 0 (512 ∷ [])
hold_all f one zero number at = let same : 512 ≡ number = cc in omega (arith, one, same)
hold_all f one (suc place) number at = cc

pub create-requires-clause-holds : goal.create-requires-clause-holds
create-requires-clause-holds c =
    hold_all (λ array. (seen_of (memory c.in_ok-bay.bay)).sectors array) (sym c.sectors.ensures.number ∙ c.if-sectors-ne67584.false)
ANTT

proof two_segments Answers.antt <<'ANTT'
use Rattle.std.proofs.Common.{◌≡◌, ℕ, zero, suc, ◌+◌, ◌*◌, ◌≤◌, [], ◌∷◌, sym, ◌∙◌, arith}
use Rattle.lvm_group.specs.Own.{HoldAll}
use Rattle.rack_mem.specs.MemBay.{memory}
use Rattle.rack_mem.specs.Memory.{seen_of}
use Rattle.ours.proofs.two_segments.Goals as goal

hold_all : (f : ℕ → ℕ) → f 0 ≡ 67584 → f 1 ≡ 67584 → HoldAll 128 f 0 (1 ∷ 1 ∷ [])
hold_all f one two zero number at = let same : 1 ≡ number = cc in omega (arith, one, same)
hold_all f one two (suc zero) number at = let same : 1 ≡ number = cc in omega (arith, two, same)
hold_all f one two (suc (suc place)) number at = cc

pub create-requires-clause-holds : goal.create-requires-clause-holds
create-requires-clause-holds c =
    hold_all (λ array. (seen_of (memory c.in_ok-bay.bay)).sectors array) (sym c.sectors.ensures.number ∙ c.if-sectors-ne67584.false)
    (sym c.sectors-2.ensures.number ∙ c.if-sectors-ne67584-2.false)
ANTT

build_ours lvm_group rack_mem rack shr_base <<'RATTLE'
#![tactic(auto)]

ghost use Rattle.std.specs.Prelude.{◌≡◌, ◌<◌, IfSome};
ghost use Rattle.rack_mem.specs.MemBay.{memory};
ghost use Rattle.rack_mem.specs.Memory.{seen_of};
ghost use Rattle.lvm_group.specs.Shown.{volume_of};
ghost use Rattle.lvm_group.specs.Volume.{below_of, linear};

use lvm_group::Volume;
use rack::{Bay, Name, Rack};
use rack_mem::{DiskSpec, MemBay};
use shr_base::Id;
use std::alloc::Global;
use std::io;
use std::time::Instant;

const READS: u64 = 200_000;

// Two arrays with room for 512 extents each.
fn two_arrays(alloc: Global) -> Option<MemBay> {
    let mut shelf = Vec::new(alloc);
    for name in ["a", "b"] {
        let name = Name::of(alloc, name.as_bytes()).ok()?;
        let disk = DiskSpec {
            name,
            sectors: 67584,
        };
        shelf.push(disk).ok()?;
    }
    if shelf.len() >= 1 << 32 || !shelf.iter().all(|disk| disk.sectors < 1 << 48) {
        return None;
    }
    let mut bay = MemBay::new(alloc, shelf, Vec::new(alloc), 700_000).ok()?;
    for name in ["a", "b"] {
        bay.attach(name).ok()?;
    }
    Some(bay)
}

// A volume of all extents of one array.
fn one_segment(alloc: Global) -> Option<Volume<MemBay>>
    ensures fit { IfSome result (λ volume. (volume_of (linear volume) (seen_of (memory (below_of volume)))).fit) }
{
    let bay = two_arrays(alloc)?;
    if bay.disks() != 2 {
        return None;
    }
    if bay.sectors(0) != 67584 {
        return None;
    }
    if bay.sectors(1) != 67584 {
        return None;
    }
    Volume::create(alloc, bay, &Id([7; 16]), 128, &[512]).ok()
}

// A volume of one extent of each array.
fn two_segments(alloc: Global) -> Option<Volume<MemBay>>
    ensures fit { IfSome result (λ volume. (volume_of (linear volume) (seen_of (memory (below_of volume)))).fit) }
    ensures sized { IfSome result (λ volume. (linear volume).extent ≡ 128) }
{
    let bay = two_arrays(alloc)?;
    if bay.disks() != 2 {
        return None;
    }
    if bay.sectors(0) != 67584 {
        return None;
    }
    if bay.sectors(1) != 67584 {
        return None;
    }
    Volume::create(alloc, bay, &Id([7; 16]), 128, &[1, 1]).ok()
}

// Extends the volume to so many extents of each array.
fn extend_to(volume: &mut Volume<MemBay>, extents: u64)
    requires fit { (volume_of (linear volume.old) (seen_of (memory (below_of volume.old)))).fit }
    requires sized { (linear volume.old).extent ≡ 128 }
    ensures fit { (volume_of (linear volume.new) (seen_of (memory (below_of volume.new)))).fit }
    ensures sized { (linear volume.new).extent ≡ 128 }
{
    if volume.below().disks() != 2 || extents > 512 {
        return;
    }
    if 2048 + extents * 128 > volume.below().sectors(0) {
        return;
    }
    if 2048 + extents * 128 > volume.below().sectors(1) {
        return;
    }
    if volume.fits(&[extents, extents]) {
        let _ = volume.extend(&[extents, extents]);
    }
}

// Extends it to all extents, in turn of one array and the other.
fn extend_all(volume: &mut Volume<MemBay>)
    requires fit { (volume_of (linear volume.old) (seen_of (memory (below_of volume.old)))).fit }
    requires sized { (linear volume.old).extent ≡ 128 }
    ensures fit { (volume_of (linear volume.new) (seen_of (memory (below_of volume.new)))).fit }
{
    for extents in 2..513 {
        extend_to(volume, extents);
    }
}

// Reads sectors of the first disk here and there, and says how many were served.
fn read_all<R: Rack>(rack: &mut R) -> u64
    requires { (R.seen rack.old).fit }
{
    let mut into = [0; 512];
    let mut served = 0;
    for at in 0..READS {
        if rack.disks() > 0 {
            let sectors = rack.sectors(0);
            if sectors > 0 && rack.read(0, at * 40_503 % sectors, &mut into).is_ok() {
                served = at + 1;
            }
        }
    }
    served
}

// Prints what a read costs.
fn report<R: Rack>(rt: &HostRuntime, name: &str, rack: &mut R) -> io::Result<()>
    requires { (R.seen rack.old).fit }
{
    let start = Instant::now(rt)?;
    let served = read_all(rack);
    let time = start.elapsed(rt)?.as_micros();
    println!(rt; "{name} {served} {time}")
}

// Prints what a read of a volume costs, and then one of the rack below it.
fn compare(rt: &HostRuntime, name: &str, volume: Volume<MemBay>) -> io::Result<()>
    requires { (volume_of (linear volume) (seen_of (memory (below_of volume)))).fit }
{
    let mut volume = volume;
    report(rt, name, &mut volume)?;
    let mut bay = volume.into_inner();
    report(rt, "below", &mut bay)
}

fn main(rt: HostRuntime) -> io::Result<()> {
    let alloc = rt.alloc();
    if let Some(volume) = one_segment(alloc) {
        compare(&rt, "1", volume)?;
    }
    if let Some(mut volume) = two_segments(alloc) {
        extend_all(&mut volume);
        compare(&rt, "1024", volume)?;
    }
    Ok(())
}
RATTLE

"$room/ours" >"$room/said"
awk '$1 == "below" { printf "with segments %s: %.2f us a read, %.2f below, ratio %.2f\n", name, time / count, $3 / $2, time / $3 }
  { name = $1; count = $2; time = $3 }' "$room/said"
