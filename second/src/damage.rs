//! Benches damaged in one field.  Each damage has values just inside or just
//! outside the limit of one part of 01's sentence "A bench is sound when ...",
//! and says by itself whether the bench is sound after it.

use crate::bench::{Record, Slot, Window};
use crate::generate::{open_sessions, put_word, Rng};
use crate::machine::Kind;
use crate::segment::{Segment, Sex};
use crate::window;
use crate::world::World;

/// What is lost where a number is cut to 32 bits.
const WIDE: u64 = 1 << 32;

/// The damages, in the order of 01's sentence.
pub const DAMAGES: [&str; 57] = [
    "S just at a limit", "S below a window", "S beyond 32,768", "S beyond N", "N beyond 1,048,576",
    "N not the memory's words", "memory one word short", "memory one word long",
    "slot range to the store's end", "slot range beyond the store", "slot start far beyond",
    "slot length odd", "segment in a slot spoilt", "a routine unlinked", "all but routine 1 unlinked",
    "routine 1 unlinked", "an entry beside zero", "a bad entry after a zero", "session in an unlinked routine",
    "pool pointer outside", "pool's first word zero", "pool's first word at its limit", "pool's first word beyond",
    "region below S", "region at N", "region beyond N", "region far beyond", "regions touch", "regions overlap",
    "slot named is 16 or more", "slot named not loaded", "L below 16", "L at 32,768",
    "L above 32,768", "L below 6+G", "SP at a limit", "SP outside",
    "lowest SP at a limit", "lowest SP between", "lowest SP outside", "SP below the lowest SP", "M at a limit", "M outside",
    "counter at a limit", "counter outside", "routine at a limit", "routine outside",
    "window to the end of S", "window empty within S", "window one past S", "window empty past S", "window far beyond",
    "window of an unused record",
    "fault and place at a limit", "fault 1 as recorded before", "fault outside 1..10", "place outside 22..2W",
];

/// Those that need a memory of a million words, so that they are used rarely.
pub const LARGE: &str = "N beyond 1,048,576";

/// The session that is damaged, and the numbers its limits come from.
struct Target {
    number: usize,
    record: Record,
    slot: Slot,
    /// W, n, 6+G, and the entry of routine 1
    words: u64,
    count: u64,
    floor: u64,
    entry: i64,
    /// Routines from 2 on whose dictionary word has no other use.
    later: Vec<i64>,
    /// Words from 11 on that are no number of the segment, so that a pool's
    /// first word may be put there.
    free: Vec<i64>,
    dictionary: i64,
    sex: Sex,
    others: Vec<Record>,
}

/// Damage one field of a sound bench.  Answers whether the bench is sound
/// after it, as 01's sentence has it, or `None` if the bench offers no such
/// field (no session open, no second region, ...).
pub fn damage(rng: &mut Rng, world: &mut World, kind: &str) -> Option<bool> {
    let target = target(rng, world)?;
    damage_sizes(rng, world, kind, &target)
        .or_else(|| damage_slots(rng, world, kind, &target))
        .or_else(|| damage_entries(rng, world, kind, &target))
        .or_else(|| damage_pool(rng, world, kind, &target))
        .or_else(|| damage_region(rng, world, kind, &target))
        .or_else(|| damage_length(rng, world, kind, &target))
        .or_else(|| damage_session(rng, world, kind, &target))
        .or_else(|| damage_low(rng, world, kind, &target))
        .or_else(|| damage_window(rng, world, kind, &target))
        .or_else(|| damage_fault(rng, world, kind, &target))
}

fn target(rng: &mut Rng, world: &World) -> Option<Target> {
    let sessions = open_sessions(&world.bench);
    let number = *sessions.get(rng.up_to((sessions.len() as u64).max(1) - 1) as usize)? as usize;
    let record = *world.bench.records.get(number)?;
    let slot = *world.bench.slots.get(record.slot as usize)?;
    let segment = Segment::judge(world.segment_bytes(record.slot)?).ok()?;
    let open = world.bench.records.iter().enumerate();
    let others = open.filter(|(at, other)| other.open && *at != number).map(|(_, other)| *other);
    Some(Target {
        number,
        record,
        slot,
        words: u64::from(segment.words),
        count: u64::from(segment.count()),
        floor: 6 + u64::from(segment.global_size()),
        entry: i64::from(segment.routine(1)?.entry),
        later: later_routines(&segment),
        free: free_words(&segment),
        dictionary: i64::from(segment.dictionary),
        sex: segment.sex,
        others: others.collect(),
    })
}

/// The routines from 2 on whose dictionary word is no other routine's DATASIZE
/// or EXITIC, so that a change of it changes one entry and nothing else.
fn later_routines(segment: &Segment) -> Vec<i64> {
    let others: Vec<u32> =
        segment.routines.iter().flat_map(|r| [r.entry, r.entry.saturating_sub(1)]).collect();
    let later = (2..=segment.count()).filter(|number| !others.contains(&(segment.dictionary + number)));
    later.map(i64::from).collect()
}

fn free_words(segment: &Segment) -> Vec<i64> {
    let positions = segment.word_positions();
    (11..segment.words).filter(|word| !positions.contains(word)).map(i64::from).collect()
}

/// S, N and the memory.
fn damage_sizes(rng: &mut Rng, world: &mut World, kind: &str, target: &Target) -> Option<bool> {
    let bench = &mut world.bench;
    let all = bench.words;
    let bases = target.others.iter().map(|other| other.base);
    let lowest = bases.chain([target.record.base]).min()?;
    match kind {
        "S just at a limit" => {
            // S may rise to the lowest region
            bench.shared = lowest;
            return Some(lowest <= 32_768);
        }
        "S beyond 32,768" => {
            // a memory large enough, all regions above the new S
            let by = 32_769 - lowest.min(32_768);
            for other in bench.records.iter_mut().filter(|other| other.open) {
                other.base += by;
            }
            bench.shared = 32_769;
            bench.words += by;
            world.memory.resize(bench.words as usize, 3);
        }
        "S beyond N" => {
            bench.shared = rng.pick(&[all + 1, WIDE + bench.shared, u64::MAX], all + 1);
        }
        "N beyond 1,048,576" => {
            bench.words = 1_048_577;
            world.memory.resize(1_048_577, 0);
        }
        "N not the memory's words" => {
            bench.words = rng.pick(&[all + 1, all - 1, WIDE + all, u64::MAX, 0], 0);
        }
        "memory one word short" => drop(world.memory.pop()),
        "memory one word long" => world.memory.push(9),
        _ => return None,
    }
    Some(false)
}

/// The range of the slot that the session names, and the segment in it.
fn damage_slots(rng: &mut Rng, world: &mut World, kind: &str, target: &Target) -> Option<bool> {
    let end = world.store.len() as u64;
    let moved = match kind {
        "slot range to the store's end" => copy_to_the_end(world, target, 0)?,
        "slot range beyond the store" => copy_to_the_end(world, target, 1)?,
        _ => target.slot.start,
    };
    let slot = world.bench.slots.get_mut(target.record.slot as usize)?;
    slot.start = moved;
    match kind {
        "slot range to the store's end" => return Some(true),
        "slot range beyond the store" => {}
        "slot start far beyond" => {
            slot.start =
                rng.pick(&[u64::MAX, u64::MAX - slot.length, 0u64.wrapping_sub(slot.length), end + 2, WIDE], WIDE);
        }
        "slot length odd" => slot.length -= 1,
        "slot named not loaded" => slot.loaded = false,
        "segment in a slot spoilt" => {
            let range = target.slot.start as usize..(target.slot.start + target.slot.length) as usize;
            let bytes = world.store.get_mut(range)?;
            match rng.up_to(3) {
                0 => *bytes.get_mut(12)? = 2,
                1 => put_word(bytes, target.sex, 1, 1),
                2 => put_word(bytes, target.sex, target.entry, 32_768),
                _ => put_word(bytes, target.sex, target.entry - 1, 21),
            }
        }
        _ => return None,
    }
    Some(false)
}

/// Bytes that no slot has are put at the store's end, so that copies of segments
/// do not make it longer.
pub fn with_room_for_a_copy(mut world: World) -> World {
    let longest = world.bench.slots.iter().map(|slot| slot.length).max().unwrap_or(0);
    world.store.resize(world.store.len() + longest as usize, 0);
    world
}

/// A copy of the segment that the session names at the store's end, but for its
/// last bytes: where no slot has the bytes there over them, else behind them.
/// Gives its first byte.
fn copy_to_the_end(world: &mut World, target: &Target, but: usize) -> Option<u64> {
    let mut copy = world.segment_bytes(target.record.slot)?.to_vec();
    copy.truncate(copy.len().checked_sub(but)?);
    let used = world.bench.slots.iter().filter(|slot| slot.loaded).map(|slot| slot.start + slot.length);
    let used = used.max().unwrap_or(0) as usize;
    let start = world.store.len().checked_sub(copy.len()).filter(|start| *start >= used);
    world.store.truncate(start.unwrap_or(world.store.len()));
    let start = world.store.len();
    world.store.extend(copy);
    Some(start as u64)
}

/// The same in a slot that no session names.
fn copy_in_another_slot(world: &mut World, target: &Target) -> Option<Slot> {
    let start = copy_to_the_end(world, target, 0)?;
    let slot = world.bench.slots.iter_mut().find(|slot| !slot.loaded)?;
    *slot = Slot { loaded: true, start, length: target.slot.length };
    Some(*slot)
}

/// The pool of the segment that the session names, or of a copy: "The pool's
/// first word must be 0 or point inside the pool (which ends at W), else refusal
/// 4, in soundness too."
fn damage_pool(rng: &mut Rng, world: &mut World, kind: &str, target: &Target) -> Option<bool> {
    if !kind.starts_with("pool") {
        return None;
    }
    let slot = if rng.chance(1, 2) { target.slot } else { copy_in_another_slot(world, target)? };
    let bytes = world.store.get_mut(slot.start as usize..(slot.start + slot.length) as usize)?;
    let words = target.words as i64;
    let at = rng.pick_in(&[*target.free.last()?], 11, words - 1);
    let at = if target.free.contains(&at) { at } else { *target.free.first()? };
    let room = words - 1 - at;
    let (pool, first, sound) = match kind {
        "pool pointer outside" => (rng.pick(&[1, 10, words, 65_535], 1), 0, false),
        "pool's first word zero" => (at, 0, true),
        "pool's first word at its limit" => (at, room, true),
        _ => (at, rng.pick(&[room + 1, room + 2, 65_535, 65_536 - at, 40_000], 65_535), false),
    };
    put_word(bytes, target.sex, at, first);
    put_word(bytes, target.sex, 7, pool);
    Some(sound)
}

/// Entries of the segment that the session names, or of a copy: "An entry of
/// zero is lawful for every routine but routine 1", in soundness too.
fn damage_entries(rng: &mut Rng, world: &mut World, kind: &str, target: &Target) -> Option<bool> {
    if !kind.contains("unlinked") && !kind.starts_with("a bad entry") && kind != "an entry beside zero" {
        return None;
    }
    let its_own = kind == "session in an unlinked routine" || rng.chance(1, 2);
    let slot = if its_own { target.slot } else { copy_in_another_slot(world, target)? };
    let bytes = world.store.get_mut(slot.start as usize..(slot.start + slot.length) as usize)?;
    let mut put = |number: i64, entry: i64| {
        put_word(bytes, target.sex, target.dictionary + number, entry);
    };
    let number = rng.pick(&target.later, *target.later.first()?);
    let bad = rng.pick(&[1, 11, target.words as i64 - 1, 65_535], 1);
    match kind {
        "a routine unlinked" => put(number, 0),
        "all but routine 1 unlinked" if target.later.len() as u64 + 1 == target.count => {
            target.later.iter().for_each(|number| put(*number, 0));
        }
        "session in an unlinked routine" => {
            put(number, 0);
            world.bench.records.get_mut(target.number)?.session.routine = number as u64;
        }
        "routine 1 unlinked" => {
            put(1, 0);
            return Some(false);
        }
        "an entry beside zero" => {
            put(number, bad);
            return Some(false);
        }
        "a bad entry after a zero" => {
            let [first, .., last] = target.later.as_slice() else { return None };
            put(*first, 0);
            put(*last, bad);
            return Some(false);
        }
        _ => return None,
    }
    Some(true)
}

/// Where the session's region lies.
fn damage_region(rng: &mut Rng, world: &mut World, kind: &str, target: &Target) -> Option<bool> {
    let (shared, all, length) = (world.bench.shared, world.bench.words, target.record.length);
    let others = &target.others;
    let field = world.bench.records.get_mut(target.number)?;
    let apart = |begin: u64, end: u64| {
        end <= all && others.iter().all(|o| end <= o.base || o.base + o.length <= begin)
    };
    match kind {
        "region below S" => field.base = shared.checked_sub(1)?,
        "region at N" => {
            field.base = all - length;
            return Some(apart(all - length, all));
        }
        "region beyond N" => field.base = all - length + 1,
        "region far beyond" => {
            let wraps_to_0 = 0u64.wrapping_sub(length);
            field.base = rng.pick(
                &[u64::MAX, wraps_to_0, wraps_to_0 - 1, wraps_to_0.wrapping_add(shared), WIDE + field.base],
                u64::MAX,
            );
        }
        "regions touch" => {
            let other = others.first()?;
            field.base = other.base + other.length;
            return Some(apart(field.base, field.base + length));
        }
        "regions overlap" => {
            let other = others.first()?;
            field.base = other.base + other.length - 1;
        }
        _ => return None,
    }
    Some(false)
}

/// L against its limits.
fn damage_length(rng: &mut Rng, world: &mut World, kind: &str, target: &Target) -> Option<bool> {
    let all = world.bench.words;
    let field = world.bench.records.get_mut(target.number)?;
    match kind {
        "L below 16" => field.length = rng.pick(&[15, 15, 0, 1], 15),
        "L at 32,768" | "L above 32,768" => {
            // a region of its own above all others
            let above = kind == "L above 32,768";
            field.base = all;
            field.length = 32_768 + u64::from(above);
            world.bench.words = all + field.length;
            world.memory.resize(world.bench.words as usize, 0);
            if above && rng.chance(1, 2) {
                field.length = rng.pick(&[WIDE + 32_768, u64::MAX, 0u64.wrapping_sub(all)], u64::MAX);
            }
            return Some(!above);
        }
        "L below 6+G" if target.floor <= 16 => {
            // make G large instead: 6+G is L+1
            let range = target.slot.start as usize..(target.slot.start + target.slot.length) as usize;
            let bytes = world.store.get_mut(range)?;
            put_word(bytes, target.sex, target.entry, target.record.length as i64 - 5);
            return Segment::judge(bytes).is_ok().then_some(false);
        }
        "L below 6+G" => field.length = target.floor - 1,
        _ => return None,
    }
    field.session.sp = field.length;
    field.session.low = target.floor.min(field.length);
    field.session.m = 1;
    Some(false)
}

/// The slot named and the registers.
fn damage_session(rng: &mut Rng, world: &mut World, kind: &str, target: &Target) -> Option<bool> {
    let (floor, length, count) = (target.floor, target.record.length, target.count);
    let bytes = 2 * target.words;
    let field = world.bench.records.get_mut(target.number)?;
    let session = &mut field.session;
    match kind {
        "slot named is 16 or more" => {
            let named = target.record.slot;
            field.slot = rng.pick(&[16, 17, 255, 256 + named, WIDE + named, u64::MAX], 16);
        }
        "SP at a limit" => {
            session.sp = rng.pick(&[floor, length], length);
            session.low = session.low.min(session.sp);
        }
        "SP outside" => {
            session.sp = rng.pick(&[floor - 1, length + 1, 0, WIDE + floor, u64::MAX], 0);
            session.low = session.low.min(session.sp);
        }
        "M at a limit" => session.m = rng.pick(&[1, length - 5], 1),
        "M outside" => session.m = rng.pick(&[0, length - 4, length, WIDE + 1, u64::MAX], 0),
        "counter at a limit" => session.counter = rng.pick(&[22, bytes], 22),
        "counter outside" => {
            session.counter = rng.pick(&[21, bytes + 1, 0, WIDE + 22, u64::MAX], 0);
        }
        "routine at a limit" => session.routine = rng.pick(&[1, count], 1),
        "routine outside" => {
            session.routine = rng.pick(&[0, count + 1, 256, WIDE + 1, u64::MAX], 0);
        }
        _ => return None,
    }
    Some(kind.ends_with("at a limit"))
}

/// The lowest SP, in a session of any kind: "A sound bench now also has this
/// mark in 6+G..SP."
fn damage_low(rng: &mut Rng, world: &mut World, kind: &str, target: &Target) -> Option<bool> {
    if !kind.contains("lowest SP") {
        return None;
    }
    let (floor, length) = (target.floor, target.record.length);
    let session = &mut world.bench.records.get_mut(target.number)?.session;
    let sp = session.sp;
    session.kind = any_kind(rng, session.kind);
    match kind {
        "lowest SP at a limit" => session.low = rng.pick(&[floor, sp], sp),
        "lowest SP between" => session.low = rng.between(floor as i64, sp as i64) as u64,
        "lowest SP outside" => {
            let beyond = [floor - 1, sp + 1, length + 1, 0, WIDE + floor, WIDE + sp, WIDE - 1, u64::MAX];
            session.low = rng.pick(&beyond, 0);
        }
        _ => {
            session.low = rng.between(floor as i64 + 1, length as i64) as u64;
            session.sp = rng.pick(&[session.low - 1, floor], floor);
        }
    }
    Some(matches!(kind, "lowest SP at a limit" | "lowest SP between"))
}

fn any_kind(rng: &mut Rng, now: Kind) -> Kind {
    rng.pick(&[now, Kind::Ready, Kind::Finished, Kind::Faulted { number: 4, place: 22 }], Kind::Ready)
}

/// The window of a session of any kind: "A window not inside the S words gets
/// 13, in soundness 11."
fn damage_window(rng: &mut Rng, world: &mut World, kind: &str, target: &Target) -> Option<bool> {
    if !kind.contains("window") {
        return None;
    }
    let all = world.bench.shared;
    let within = rng.up_to(all);
    let Window { first, count } = target.record.window;
    if kind == "S below a window" {
        // the regions stay above it
        world.bench.shared = (first + count).checked_sub(1)?;
        return Some(false);
    }
    if kind == "window of an unused record" {
        let unused = world.bench.records.iter_mut().find(|record| !record.open)?;
        unused.window = window::far(rng, first, count);
        return Some(true);
    }
    let record = world.bench.records.get_mut(target.number)?;
    record.session.kind = any_kind(rng, record.session.kind);
    record.window = match kind {
        "window to the end of S" => Window { first: within, count: all - within },
        "window empty within S" => Window { first: rng.pick(&[0, within, all], all), count: 0 },
        "window one past S" => Window { first: within, count: all - within + 1 },
        "window empty past S" => Window { first: all + rng.pick(&[1, 1, 4, 40_000], 1), count: 0 },
        _ => window::far(rng, first, count),
    };
    Some(matches!(kind, "window to the end of S" | "window empty within S"))
}

/// Fault and place of a faulted session.
fn damage_fault(rng: &mut Rng, world: &mut World, kind: &str, target: &Target) -> Option<bool> {
    let bytes = 2 * target.words;
    let session = &mut world.bench.records.get_mut(target.number)?.session;
    match kind {
        "fault and place at a limit" => {
            let (number, place) = (rng.pick(&[1, 10], 1), rng.pick(&[22, bytes], 22));
            session.kind = Kind::Faulted { number, place };
        }
        "fault 1 as recorded before" => {
            // at its instruction, or anywhere else that a place may be
            let counter = session.counter;
            let place = rng.pick(&[counter, counter, 22, (counter + 1).min(bytes)], counter);
            session.kind = Kind::Faulted { number: 1, place };
        }
        "fault outside 1..10" => {
            session.kind = Kind::Faulted { number: rng.pick(&[0, 11, 255], 0), place: 22 };
        }
        "place outside 22..2W" => {
            let place = rng.pick(&[21, bytes + 1, 0, WIDE + 22, u64::MAX], 0);
            session.kind = Kind::Faulted { number: 1, place };
        }
        _ => return None,
    }
    Some(!kind.contains("outside"))
}
